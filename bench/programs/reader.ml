(* Dynamic binding: a name is looked up through handlers that stand for the scopes around. *)
open Effect
open Effect.Deep
type _ Effect.t += Lookup : int -> int Effect.t
let with_binding name (value : int) body = match body () with
  | result -> result
  | effect (Lookup other), k -> continue k (if other = name then value else perform (Lookup other))
let rec scopes depth body = if depth = 0 then body () else with_binding depth (depth * depth) (fun () -> scopes (depth - 1) body)
let rec sum n total = if n = 0 then total else sum (n - 1) (total + perform (Lookup (1 + n mod 6)))
let () = print_int (scopes 6 (fun () -> sum 8000 0))
