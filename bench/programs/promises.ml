(* Fibers that await promises, on a queue of those that can go on. *)
open Effect
open Effect.Deep
type cell = Empty of (int -> unit) list | Full of int
type _ Effect.t += Async : (unit -> int) -> cell ref Effect.t | Await : cell ref -> int Effect.t
let ready = Queue.create ()
let run_next () = if Queue.is_empty ready then () else (Queue.pop ready) ()
let fill cell value = match !cell with
  | Full _ -> ()
  | Empty waiting ->
    cell := Full value;
    List.iter (fun wake -> Queue.push (fun () -> wake value) ready) waiting
let rec fiber cell work = match work () with
  | value -> fill cell value; run_next ()
  | effect (Async job), k ->
    let promise = ref (Empty []) in
    Queue.push (fun () -> continue k promise) ready;
    fiber promise job
  | effect (Await promise), k ->
    (match !promise with
     | Full value -> continue k value
     | Empty waiting -> promise := Empty ((fun value -> continue k value) :: waiting); run_next ())
let rec tree n = if n < 2 then n else begin
  let a = perform (Async (fun () -> tree (n - 1))) in
  let b = perform (Async (fun () -> tree (n - 2))) in
  perform (Await a) + perform (Await b)
end
let () =
  let result = ref (Empty []) in
  fiber result (fun () -> tree 17);
  match !result with
  | Full value -> print_int value
  | Empty _ -> print_string "stuck"
