(* Parser combinators. A parser is a function that asks for its input by effects: it looks at the
   next character, takes it, or goes back to where it was. What can't be read is an exception, at
   which a choice goes back and tries its other side. The handler has the text, which comes in
   pieces; it takes the next piece when a parser asks for more than it has.
   Prints: width = 12
           area = 60
           60
           wrong at 5: an expression
           wrong at 6: the end *)
open Effect
open Effect.Deep

type _ Effect.t +=
  | Peek : char option Effect.t
  | Skip : unit Effect.t
  | Mark : int Effect.t
  | Reset : int -> unit Effect.t
  | Expect : string -> unit Effect.t

exception Unread

type 'a outcome = Parsed of 'a | Wrong of int * string

(* Runs a parser on a text in pieces. What was expected is told of the last place reached. *)
let parse parser pieces =
  let text = ref "" and pieces = ref pieces and at = ref 0 in
  let reached = ref 0 and expected = ref "" in
  let rec peek () =
    if !at < String.length !text then Some !text.[!at]
    else
      match !pieces with
      | [] -> None
      | piece :: rest -> text := !text ^ piece; pieces := rest; peek ()
  in
  match parser () with
  | value -> Parsed value
  | exception Unread -> Wrong (!reached, !expected)
  | effect Peek, k -> continue k (peek ())
  | effect Skip, k -> incr at; continue k ()
  | effect Mark, k -> continue k !at
  | effect (Reset place), k -> at := place; continue k ()
  | effect (Expect wanted), k ->
    if !at >= !reached then begin reached := !at; expected := wanted end;
    discontinue k Unread

(* The combinators. *)
let expected wanted = perform (Expect wanted); raise Unread

let satisfy wanted test () =
  match perform Peek with
  | Some c when test c -> perform Skip; c
  | _ -> expected wanted

let either first second () =
  let start = perform Mark in
  try first () with Unread -> perform (Reset start); second ()

let rec many parser () =
  let start = perform Mark in
  match parser () with
  | value -> value :: many parser ()
  | exception Unread -> perform (Reset start); []

let some parser () =
  let first = parser () in
  first :: many parser ()

let blanks = many (satisfy "a blank" (fun c -> c = ' '))

let token parser () =
  let value = parser () in
  ignore (blanks ());
  value

let sign c = token (satisfy "a sign" (fun other -> other = c))

let finish () =
  match perform Peek with
  | None -> ()
  | Some _ -> expected "the end"

(* One after the other, with an operator between them, to the left. *)
let chain operand operator combine () =
  let rest () = ignore (operator ()); operand () in
  let first = operand () in
  List.fold_left combine first (many rest ())

(* The language: sums and products of numbers and names, and definitions of names. *)
type expression =
  | Number of int
  | Name of string
  | Sum of expression * expression
  | Product of expression * expression

type statement = Define of string * expression | Show of expression

let digit = satisfy "a digit" (fun c -> c >= '0' && c <= '9')
let letter = satisfy "a letter" (fun c -> c >= 'a' && c <= 'z')

let number =
  token (fun () ->
    let value total c = 10 * total + Char.code c - Char.code '0' in
    List.fold_left value 0 (some digit ()))

let alphabet = "abcdefghijklmnopqrstuvwxyz"
let text_of c = String.sub alphabet (Char.code c - Char.code 'a') 1
let name = token (fun () -> List.fold_left (fun text c -> text ^ text_of c) "" (some letter ()))

let rec expression () = chain product (sign '+') (fun a b -> Sum (a, b)) ()
and product () = chain operand (sign '*') (fun a b -> Product (a, b)) ()
and operand () =
  let bracketed () =
    ignore (sign '(' ());
    let inside = expression () in
    ignore (sign ')' ());
    inside
  in
  let number () = Number (number ()) and name () = Name (name ()) in
  let none () = expected "an expression" in
  either number (either name (either bracketed none)) ()

(* A definition begins as an expression may: where no sign follows the name, it was one. *)
let statement () =
  let definition () =
    let defined = name () in
    ignore (sign '=' ());
    Define (defined, expression ())
  in
  let shown () = Show (expression ()) in
  let found = either definition shown () in
  finish ();
  found

let rec find names (wanted : string) =
  match names with
  | [] -> raise Not_found
  | (name, value) :: rest -> if name = wanted then value else find rest wanted

let rec value names e =
  match e with
  | Number n -> n
  | Name name -> find names name
  | Sum (a, b) -> value names a + value names b
  | Product (a, b) -> value names a * value names b

let calculate names pieces =
  match parse statement pieces with
  | Parsed (Define (name, e)) ->
    let n = value names e in
    print_string name;
    print_string " = ";
    print_int n;
    print_newline ();
    (name, n) :: names
  | Parsed (Show e) -> print_int (value names e); print_newline (); names
  | Wrong (place, wanted) ->
    print_string "wrong at ";
    print_int place;
    print_endline (": " ^ wanted);
    names

let () =
  let names = calculate [] ["wid"; "th = 3 *"; " (1 + 3)"] in
  let names = calculate names ["area"; " = width * 5"] in
  let names = calculate names ["area"] in
  let names = calculate names ["1 + ("; ")"] in
  ignore (calculate names ["1 + 2 3"])
