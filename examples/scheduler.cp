"A resource scheduler with a queue for each user. The resource is taken until the
 program releases it; two users ask for it meanwhile. Who gets it displays two
 digits: whether it asked first or second, and its number.

 Options: --choices 17

 Look for: 21 12. User 1 asked second and gets the resource first: of those who
 wait the one with the least number is served, since release looks through the
 array of queues from below and wakes the first waiter that it finds. There is no
 22 11: user 2 never passes user 1. In 12 21 user 1 asked only after 2 had got it."
const users = 2;
type
user_number = 1..users;
scheduler = monitor;
  var free: boolean; asked: integer; turn: array [1..users] of queue;
  procedure entry request(user: user_number);
    var place: integer;
  begin
    asked := asked + 1; place := asked;
    if not free then delay(turn[user]);
    free := false;
    display(10 * place + user)
  end;
  procedure entry release;
    var user: integer;
  begin
    free := true;
    for user := 1 to users do
      if not empty(turn[user]) then continue(turn[user])
  end;
begin free := false; asked := 0 end;

user = process(s: scheduler; me: user_number);
begin s.request(me); s.release end;

var s: scheduler; u: array [1..users] of user;
begin init s, u[1](s, 1), u[2](s, 2); s.release end.
