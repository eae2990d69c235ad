(* Same fringe: two walks of trees as streams, a leaf at a time. *)
open Effect
open Effect.Deep
type _ Effect.t += Leaf : int -> unit Effect.t
type tree = Tip of int | Fork of tree * tree
type stream = End | More of int * (unit, stream) continuation
let rec left lo hi = if lo = hi then Tip lo else Fork (left lo (hi - 1), Tip hi)
let rec balanced lo hi =
  if lo = hi then Tip lo else let m = (lo + hi) / 2 in Fork (balanced lo m, balanced (m + 1) hi)
let rec walk tree = match tree with
  | Tip n -> perform (Leaf n)
  | Fork (a, b) -> walk a; walk b
let stream tree = match walk tree with
  | () -> End
  | effect (Leaf n), k -> More (n, k)
let rec same a b count = match a with
  | End -> (match b with End -> count | More (_, _) -> -1)
  | More (x, k) ->
    (match b with
     | End -> -1
     | More (y, l) -> if x = y then same (continue k ()) (continue l ()) (count + 1) else -1)
let rec repeat n = if n = 0 then () else begin
  print_int (same (stream (left 1 300)) (stream (balanced 1 300)) 0);
  print_char ' ';
  repeat (n - 1)
end
let () = repeat 40
