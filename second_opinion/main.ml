(* Reads the file that is named, and says whether the program that Coq extracted takes it for
   right: the status is 0, or 3 where it is refused. *)

open Is_right

(* Coq's number of a byte, made bit by bit *)
let rec positive i =
  if i = 1 then XH else if i land 1 = 1 then XI (positive (i / 2)) else XO (positive (i / 2))

let numbers = Array.init 256 (fun i -> if i = 0 then N0 else Npos (positive i))

(* the first n bytes of a text, before others *)
let rec bytes text n rest =
  if n = 0 then rest else bytes text (n - 1) (numbers.(Char.code text.[n - 1]) :: rest)

let () =
  let file = open_in_bin Sys.argv.(1) in
  let text = really_input_string file (in_channel_length file) in
  if is_right (bytes text (String.length text) []) then print_endline "right"
  else (print_endline "refused"; exit 3)
