(* Promises. A computation that is started answers with a promise at once; one that waits for a
   promise is suspended until the promise is kept, and then goes on with its value.
   Prints: start wait right left sum 42 *)
open Effect
open Effect.Deep

type state = Kept of int | Open of (int, unit) continuation list
type promise = { mutable state : state }
type _ Effect.t +=
  | Start : (unit -> int) -> promise Effect.t
  | Await : promise -> int Effect.t
  | Pause : unit Effect.t

let ready = Queue.create ()
let later task = Queue.push task ready

let keep promise value =
  match promise.state with
  | Kept _ -> failwith "kept twice"
  | Open suspended ->
    promise.state <- Kept value;
    List.iter (fun k -> later (fun () -> continue k value)) suspended

let next () = if Queue.is_empty ready then () else (Queue.pop ready) ()

let rec run task =
  match task () with
  | () -> next ()
  | effect Pause, k -> later (continue k); next ()
  | effect (Start computation), k ->
    let promise = { state = Open [] } in
    later (fun () -> run (fun () -> keep promise (computation ())));
    continue k promise
  | effect (Await promise), k ->
    (match promise.state with
     | Kept value -> continue k value
     | Open suspended -> promise.state <- Open (k :: suspended); next ())

let say word = print_string word; print_string " "

let () =
  run (fun () ->
    say "start";
    let left = perform (Start (fun () -> perform Pause; perform Pause; say "left"; 19)) in
    let right = perform (Start (fun () -> perform (Await left) + (say "right"; 23) - 19)) in
    say "wait";
    let sum = perform (Await left) + perform (Await right) in
    say "sum";
    print_int sum;
    print_newline ())
