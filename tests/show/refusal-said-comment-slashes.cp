begin // hello
end.