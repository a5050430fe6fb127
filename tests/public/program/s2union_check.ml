(* s2union-check: whether a union file is the answer to a question about union files, by the checker that Coq proved.

   Prints 'accepted', with status 0, or 'refused: ' and the first place at which the answer differs, with status 1. An
   error goes to standard error by its name, with status 2. *)
let help =
  {|s2union-check A union B OUT            whether the file OUT has the union of those of A and B
s2union-check A intersection B OUT
s2union-check A difference B OUT       the leaves of A that are not in B
s2union-check A symmetric_difference B OUT
s2union-check A complement OUT
s2union-check A normalise OUT          A may have any cells, in any order
s2union-check A denormalise LEAST MODULUS OUT
s2union-check A outer LEVEL OUT        the cells of a level that share a leaf with A, normalized
s2union-check A inner LEVEL OUT        the cells of a level that lie inside A, normalized
s2union-check FACE I0 I1 J0 J1 outer LEVEL OUT     the same of a rectangle of a face, bounds included
s2union-check FACE I0 I1 J0 J1 inner LEVEL OUT
s2union-check A contains B ANSWER      ANSWER is yes or no
s2union-check A intersects B ANSWER
s2union-check A file                   whether A is the one file of its set
s2union-check --lines                  lines 'OP / CELL.. / CELL.. / ANSWER' of decimal identifiers, and of
                                       'OP LEVEL / FACE I0 I1 J0 J1 / rectangle / ANSWER'

prints 'accepted', with status 0, or 'refused: ' and the first place that differs, with status 1.
An error has status 2: file, short, version, trailing, cell, usage, memory.|}

exception Wrong of string * string (* an error's name, and what it is about *)

let questions =
  Checker.
    [ ("union", fun a b -> Union (a, b)); ("intersection", fun a b -> Intersection (a, b));
      ("difference", fun a b -> Difference (a, b)); ("symmetric_difference", fun a b -> SymmetricDifference (a, b)) ]

let questions_of_one = Checker.[ ("complement", fun a -> Complement a); ("normalise", fun a -> Normalise a) ]
let coverings = Checker.[ ("outer", fun level a -> OuterOf (level, a)); ("inner", fun level a -> InnerOf (level, a)) ]
let coverings_of_rectangles =
  Checker.[ ("outer", fun level r -> Outer (level, r)); ("inner", fun level r -> Inner (level, r)) ]

let relations = Checker.[ ("contains", Contains_); ("intersects", Intersects) ]
let answers = Checker.[ ("yes", Yes); ("no", No) ]

(* ---- what is said *)
let number = Z.format "%016x"
let leaf x = "the leaf " ^ number (Z.succ (Z.add x x))
let not_a_cell n = Wrong ("cell", number n ^ " is not the identifier of a cell")

let verdict out = function
  | Checker.Accepted -> None
  | NoCell n -> Some (number n ^ " is not the identifier of a cell")
  | Descends x -> Some (leaf x ^ " begins a cell that does not come after the one before it")
  | Mergeable c -> Some (number c ^ " and the next three cells are the children of one cell")
  | Differs x when Checker.has (Checker.spans_of out) x -> Some (leaf x ^ " is too much")
  | Differs x -> Some (leaf x ^ " is missing")
  | Unknown -> raise (Wrong ("memory", "the checker came to no end"))

let judgement out = function Checker.NotAsked n -> raise (not_a_cell n) | Judged found -> verdict out found
let judged question out = judgement out (Checker.judged question out)
let covered covering out = judgement out (Checker.judged_covering covering out)

let related relation a b said =
  match Checker.answered relation a b with
  | NoAnswer n -> raise (not_a_cell n)
  | found when found = List.assoc said answers -> None
  | found -> Some ("the answer is " ^ fst (List.find (fun (_, it) -> it = found) answers))

let level least most word =
  match int_of_string_opt word with
  | Some n when least <= n && n <= most -> Z.of_int n
  | _ -> raise (Wrong ("usage", Printf.sprintf "%s is not a number from %d to %d" word least most))

let rectangle words =
  let most = (1 lsl 30) - 1 in
  match List.map2 (level 0) [ 5; most; most; most; most ] words with
  | [ face; i0; i1; j0; j1 ] when Z.leq i0 i1 && Z.leq j0 j1 -> Checker.rectangle face i0 i1 j0 j1
  | _ -> raise (Wrong ("usage", String.concat " " words ^ " is not a rectangle"))

let words text = List.filter (fun word -> word <> "") (String.split_on_char ' ' text)

(* How many cells are made of one. They lie on the stack, whose end is no exception of OCaml if it comes in C: a cell
   has 64 bytes of it. *)
let most_of_one () =
  let rec of_lines limits =
    match words (input_line limits) with
    | "Max" :: "stack" :: "size" :: "unlimited" :: _ -> max_int
    | "Max" :: "stack" :: "size" :: soft :: _ -> int_of_string soft / 64
    | _ -> of_lines limits
  in
  try
    let limits = open_in "/proc/self/limits" in
    Fun.protect ~finally:(fun () -> close_in limits) (fun () -> of_lines limits)
  with Sys_error _ | End_of_file -> 100_000

let cut least modulus a out =
  let least = level 0 30 least and modulus = level 1 3 modulus and most = most_of_one () in
  let is_many cell =
    let own = Checker.level_of cell in
    Z.pow (Z.of_int 4) (Z.to_int (Z.sub (Checker.cut_level own least modulus) own)) |> Z.lt (Z.of_int most)
  in
  Option.iter (fun n -> raise (not_a_cell n)) (Checker.first_wrong a);
  if List.compare_length_with a most > 0 || List.exists is_many a then raise Stack_overflow;
  Option.map
    (fun place -> "the cell at index " ^ Z.to_string place ^ " is another one")
    (Checker.first_uncut least modulus a out)

(* ---- questions about files *)
let bytes_of path =
  try
    let file = open_in_bin path in
    Fun.protect ~finally:(fun () -> close_in file) (fun () -> really_input_string file (in_channel_length file))
  with Sys_error why -> raise (Wrong ("file", why))

let number_at bytes place = Z.extract (Z.of_int64 (String.get_int64_le bytes place)) 0 64

let cells_of path =
  let bytes = bytes_of path in
  let size = String.length bytes in
  let wrong name = raise (Wrong (name, path)) in
  if size = 0 then wrong "short";
  if bytes.[0] <> '\001' then wrong "version";
  if size < 9 then wrong "short";
  let stated = Z.add (Z.of_int 9) (Z.mul (Z.of_int 8) (number_at bytes 1)) in
  if Z.lt (Z.of_int size) stated then wrong "short";
  if Z.gt (Z.of_int size) stated then wrong "trailing";
  let rec from place cells = if place < 9 then cells else from (place - 8) (number_at bytes place :: cells) in
  from (size - 8) []

let asked = function
  | [ a; name; b; out ] when List.mem_assoc name questions ->
      let out = cells_of out in
      judged ((List.assoc name questions) (cells_of a) (cells_of b)) out
  | [ a; name; out ] when List.mem_assoc name questions_of_one ->
      judged ((List.assoc name questions_of_one) (cells_of a)) (cells_of out)
  | [ a; name; b; said ] when List.mem_assoc name relations && List.mem_assoc said answers ->
      related (List.assoc name relations) (cells_of a) (cells_of b) said
  | [ a; "denormalise"; least; modulus; out ] -> cut least modulus (cells_of a) (cells_of out)
  | [ a; name; deep; out ] when List.mem_assoc name coverings ->
      covered ((List.assoc name coverings) (level 0 30 deep) (cells_of a)) (cells_of out)
  | [ face; i0; i1; j0; j1; name; deep; out ] when List.mem_assoc name coverings ->
      let r = rectangle [ face; i0; i1; j0; j1 ] in
      covered ((List.assoc name coverings_of_rectangles) (level 0 30 deep) r) (cells_of out)
  | [ a; "file" ] ->
      let cells = cells_of a in
      let wrong = Checker.first_wrong cells in
      if wrong = None then judged (Normalise cells) cells else verdict cells (NoCell (Option.get wrong))
  | _ -> raise (Wrong ("usage", "s2union-check --help has the forms"))

(* ---- questions in lines *)
let cells text = List.map Z.of_string (words text)

let asked_in line =
  match List.map String.trim (String.split_on_char '/' line) with
  | [ name; a; b; out ] when List.mem_assoc name questions ->
      judged ((List.assoc name questions) (cells a) (cells b)) (cells out)
  | [ name; a; ""; out ] when List.mem_assoc name questions_of_one ->
      judged ((List.assoc name questions_of_one) (cells a)) (cells out)
  | [ name; a; b; said ] when List.mem_assoc name relations && List.mem_assoc said answers ->
      related (List.assoc name relations) (cells a) (cells b) said
  | [ name; a; "rectangle"; out ] -> (
      match words name with
      | [ name; deep ] when List.mem_assoc name coverings && List.length (words a) = 5 ->
          covered ((List.assoc name coverings_of_rectangles) (level 0 30 deep) (rectangle (words a))) (cells out)
      | _ -> raise (Wrong ("usage", line)))
  | [ name; a; ""; out ] -> (
      match words name with
      | [ "denormalise"; least; modulus ] -> cut least modulus (cells a) (cells out)
      | [ name; deep ] when List.mem_assoc name coverings ->
          covered ((List.assoc name coverings) (level 0 30 deep) (cells a)) (cells out)
      | _ -> raise (Wrong ("usage", line)))
  | _ -> raise (Wrong ("usage", line))

let told found =
  print_endline (match found with None -> "accepted" | Some place -> "refused: " ^ place);
  found = None

let rec told_of_lines all_right =
  match input_line stdin with
  | line -> told_of_lines (told (asked_in line) && all_right)
  | exception End_of_file -> all_right

let () =
  let fail name about =
    prerr_endline (Printf.sprintf "s2union-check: %s: %s" name about);
    exit 2
  in
  match List.tl (Array.to_list Sys.argv) with
  | [ "--help" ] -> print_endline help
  | words -> (
      match if words = [ "--lines" ] then told_of_lines true else told (asked words) with
      | is_right -> exit (if is_right then 0 else 1)
      | exception Wrong (name, about) -> fail name about
      | exception (Stack_overflow | Out_of_memory) -> fail "memory" "the lists are too long"
      | exception Invalid_argument _ -> fail "usage" "a number is expected")
