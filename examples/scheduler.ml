(* A round-robin scheduler. A task gives up its turn by an effect and starts further tasks by
   another; the handler keeps the tasks that wait in a queue and runs them in turn.
   Prints: a1 b1 a2 c1 b2 a3 c2 b3 c3 done *)
open Effect
open Effect.Deep

type _ Effect.t += Fork : (unit -> unit) -> unit Effect.t | Yield : unit Effect.t

let run main =
  let waiting = Queue.create () in
  let next () = if Queue.is_empty waiting then () else (Queue.pop waiting) () in
  let rec start task =
    match task () with
    | () -> next ()
    | effect Yield, k -> Queue.push (continue k) waiting; next ()
    | effect (Fork other), k -> Queue.push (continue k) waiting; start other
  in
  start main

let task name () =
  for i = 1 to 3 do
    print_string name;
    print_int i;
    print_string " ";
    perform Yield
  done

let () =
  run (fun () ->
    perform (Fork (task "a"));
    perform (Fork (task "b"));
    perform (Fork (task "c")));
  print_endline "done"
