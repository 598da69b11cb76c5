"Nine customers with long names at one counter"
type
ticket_machine_of_the_office = monitor;
  var next_ticket_number: integer; waiting_room: queue; is_busy_with_somebody: boolean;
  procedure entry take_ticket_and_wait(customer: integer; var ticket: integer);
  begin next_ticket_number := next_ticket_number + 1; ticket := next_ticket_number;
    if is_busy_with_somebody then delay(waiting_room); is_busy_with_somebody := true end;
  procedure entry leave_the_counter;
  begin is_busy_with_somebody := false; continue(waiting_room) end;
begin next_ticket_number := 0; is_busy_with_somebody := false end;
customer_with_a_long_name = process(m: ticket_machine_of_the_office; number: integer);
var my_own_ticket_number: integer;
begin m.take_ticket_and_wait(number, my_own_ticket_number); display(my_own_ticket_number); m.leave_the_counter end;
var the_only_machine_in_town: ticket_machine_of_the_office; customers_in_the_queue: array [1..9] of customer_with_a_long_name; i: integer;
begin
  init the_only_machine_in_town;
  init customers_in_the_queue[1](the_only_machine_in_town, 1), customers_in_the_queue[2](the_only_machine_in_town, 2),
  customers_in_the_queue[3](the_only_machine_in_town, 3), customers_in_the_queue[4](the_only_machine_in_town, 4),
  customers_in_the_queue[5](the_only_machine_in_town, 5), customers_in_the_queue[6](the_only_machine_in_town, 6),
  customers_in_the_queue[7](the_only_machine_in_town, 7), customers_in_the_queue[8](the_only_machine_in_town, 8), customers_in_the_queue[9](the_only_machine_in_town, 9)
end.
