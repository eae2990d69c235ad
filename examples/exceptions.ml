(* Exceptions as effects. Where a number is bad, the reader performs an effect; the handler decides
   whether the reading goes on with another number or is given up, and a reading that is given up
   still closes what it has opened.
   Prints: open close 12
           open close given up: 1x *)
open Effect
open Effect.Deep

type _ Effect.t += Bad : string -> int Effect.t

exception Given_up of string

let digit c = if c >= '0' && c <= '9' then Char.code c - Char.code '0' else -1

let number text =
  let rec from i value =
    if i = String.length text then value
    else begin
      let d = digit text.[i] in
      if d < 0 then perform (Bad text) else from (i + 1) (10 * value + d)
    end
  in
  from 0 0

let sum texts =
  print_string "open ";
  match List.fold_left (fun total text -> total + number text) 0 texts with
  | total -> print_string "close "; total
  | exception e -> print_string "close "; raise e

let lenient texts =
  match sum texts with
  | total -> print_int total; print_newline ()
  | effect (Bad _), k -> continue k 0

let strict texts =
  match sum texts with
  | total -> print_int total; print_newline ()
  | exception (Given_up text) -> print_endline ("given up: " ^ text)
  | effect (Bad text), k -> discontinue k (Given_up text)

let () =
  let texts = ["7"; "1x"; "5"] in
  lenient texts;
  strict texts
