(* Backpressure. A producer and a consumer meet at a queue of two places. A producer that finds it
   full is suspended until a place is free, and a consumer that finds it empty until there is
   something to take.
   Prints: +1 +2 full -1 -2 empty +3 +4 full -3 -4 empty +5 -5 end *)
open Effect
open Effect.Deep

type _ Effect.t += Put : int -> unit Effect.t | Take : int Effect.t

let room = 2
let items = Queue.create ()
let producer = ref None
let consumer = ref None

let say sign n = print_string sign; print_int n; print_string " "

let produce last () =
  for n = 1 to last do
    perform (Put n)
  done

let consume count () =
  for _i = 1 to count do
    say "-" (perform Take)
  done

let add n = say "+" n; Queue.push n items

(* Goes on with what waits in a place, if something does. *)
let wake place =
  match !place with
  | None -> ()
  | Some task -> place := None; task ()

let run task =
  match task () with
  | () -> wake consumer
  | effect (Put n), k ->
    if Queue.length items < room then begin add n; continue k () end
    else begin
      print_string "full ";
      producer := Some (fun () -> add n; continue k ());
      wake consumer
    end
  | effect Take, k ->
    if Queue.is_empty items then begin
      print_string "empty ";
      consumer := Some (fun () -> continue k (Queue.pop items));
      wake producer
    end
    else continue k (Queue.pop items)

let () =
  run (produce 5);
  run (consume 5);
  print_endline "end"
