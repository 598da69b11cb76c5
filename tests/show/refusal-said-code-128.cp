begin display('(:128:)');
 display('ab') end.