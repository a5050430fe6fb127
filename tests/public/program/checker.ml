
(** val xorb : bool -> bool -> bool **)

let xorb b1 b2 =
  if b1 then if b2 then false else true else b2

(** val negb : bool -> bool **)

let negb = function
| true -> false
| false -> true

(** val fst : ('a1*'a2) -> 'a1 **)

let fst = function
| x,_ -> x

(** val snd : ('a1*'a2) -> 'a2 **)

let snd = function
| _,y -> y

(** val app : 'a1 list -> 'a1 list -> 'a1 list **)

let rec app l m =
  match l with
  | [] -> m
  | a::l1 -> a::(app l1 m)

(** val sub : Z.t -> Z.t -> Z.t **)

let rec sub = (fun a b -> if Z.lt a b then Z.zero else Z.sub a b)

(** val eqb : bool -> bool -> bool **)

let eqb b1 b2 =
  if b1 then b2 else if b2 then false else true

module Nat =
 struct
  (** val sub : Z.t -> Z.t -> Z.t **)

  let rec sub = (fun a b -> if Z.lt a b then Z.zero else Z.sub a b)

  (** val even : Z.t -> bool **)

  let rec even n =
    (fun z s n -> if Z.sign n = 0 then z () else s (Z.pred n))
      (fun _ -> true)
      (fun n0 ->
      (fun z s n -> if Z.sign n = 0 then z () else s (Z.pred n))
        (fun _ -> false)
        (fun n' -> even n')
        n0)
      n

  (** val odd : Z.t -> bool **)

  let odd n =
    negb (even n)

  (** val pow : Z.t -> Z.t -> Z.t **)

  let rec pow = (fun a b -> Z.pow a (Z.to_int b))

  (** val divmod : Z.t -> Z.t -> Z.t -> Z.t -> Z.t*Z.t **)

  let rec divmod x y q u =
    (fun z s n -> if Z.sign n = 0 then z () else s (Z.pred n))
      (fun _ -> q,u)
      (fun x' ->
      (fun z s n -> if Z.sign n = 0 then z () else s (Z.pred n))
        (fun _ -> divmod x' y (Z.succ q) y)
        (fun u' -> divmod x' y q u')
        u)
      x

  (** val div : Z.t -> Z.t -> Z.t **)

  let div = (fun a b -> if Z.sign b = 0 then Z.zero else Z.div a b)

  (** val modulo : Z.t -> Z.t -> Z.t **)

  let modulo = (fun a b -> if Z.sign b = 0 then a else Z.rem a b)

  (** val div2 : Z.t -> Z.t **)

  let rec div2 n =
    (fun z s n -> if Z.sign n = 0 then z () else s (Z.pred n))
      (fun _ -> Z.zero)
      (fun n0 ->
      (fun z s n -> if Z.sign n = 0 then z () else s (Z.pred n))
        (fun _ -> Z.zero)
        (fun n' -> Z.succ (div2 n'))
        n0)
      n

  (** val bitwise : (bool -> bool -> bool) -> Z.t -> Z.t -> Z.t -> Z.t **)

  let rec bitwise op n a b =
    (fun z s n -> if Z.sign n = 0 then z () else s (Z.pred n))
      (fun _ -> Z.zero)
      (fun n' ->
      Z.add (if op (odd a) (odd b) then Z.succ Z.zero else Z.zero)
        (Z.mul (Z.succ (Z.succ Z.zero)) (bitwise op n' (div2 a) (div2 b))))
      n
 end

(** val rev_append : 'a1 list -> 'a1 list -> 'a1 list **)

let rec rev_append l l' =
  match l with
  | [] -> l'
  | a::l0 -> rev_append l0 (a::l')

(** val map : ('a1 -> 'a2) -> 'a1 list -> 'a2 list **)

let rec map f = function
| [] -> []
| a::t -> (f a)::(map f t)

(** val flat_map : ('a1 -> 'a2 list) -> 'a1 list -> 'a2 list **)

let rec flat_map f = function
| [] -> []
| x::t -> app (f x) (flat_map f t)

(** val existsb : ('a1 -> bool) -> 'a1 list -> bool **)

let rec existsb f = function
| [] -> false
| a::l0 -> if f a then true else existsb f l0

(** val get_or : 'a1 list -> Z.t -> 'a1 -> 'a1 **)

let rec get_or xs n d =
  match xs with
  | [] -> d
  | x::ys ->
    ((fun z s n -> if Z.sign n = 0 then z () else s (Z.pred n))
       (fun _ -> x)
       (fun m -> get_or ys m d)
       n)

(** val slice_index : Z.t list -> Z.t -> Z.t **)

let slice_index xs n =
  get_or xs n Z.zero

(** val range_with_len : Z.t -> Z.t -> Z.t list **)

let rec range_with_len m n =
  (fun z s n -> if Z.sign n = 0 then z () else s (Z.pred n))
    (fun _ -> [])
    (fun k -> m::(range_with_len (Z.succ m) k))
    n

(** val under : Z.t -> Z.t -> Z.t **)

let under d t =
  (fun z s n -> if Z.sign n = 0 then z () else s (Z.pred n))
    (fun _ -> Z.succ t)
    (fun _ -> Z.zero)
    d

(** val count_trailing_zeros : Z.t -> Z.t -> Z.t **)

let rec count_trailing_zeros k n =
  (fun z s n -> if Z.sign n = 0 then z () else s (Z.pred n))
    (fun _ -> Z.zero)
    (fun j ->
    under (Nat.modulo n (Z.succ (Z.succ Z.zero)))
      (count_trailing_zeros j (Nat.div n (Z.succ (Z.succ Z.zero)))))
    k

(** val level_of : Z.t -> Z.t **)

let level_of n =
  Nat.sub (Z.succ (Z.succ (Z.succ (Z.succ (Z.succ (Z.succ (Z.succ (Z.succ
    (Z.succ (Z.succ (Z.succ (Z.succ (Z.succ (Z.succ (Z.succ (Z.succ (Z.succ
    (Z.succ (Z.succ (Z.succ (Z.succ (Z.succ (Z.succ (Z.succ (Z.succ (Z.succ
    (Z.succ (Z.succ (Z.succ (Z.succ Z.zero))))))))))))))))))))))))))))))
    (Nat.div
      (count_trailing_zeros (Z.succ (Z.succ (Z.succ (Z.succ (Z.succ (Z.succ
        (Z.succ (Z.succ (Z.succ (Z.succ (Z.succ (Z.succ (Z.succ (Z.succ
        (Z.succ (Z.succ (Z.succ (Z.succ (Z.succ (Z.succ (Z.succ (Z.succ
        (Z.succ (Z.succ (Z.succ (Z.succ (Z.succ (Z.succ (Z.succ (Z.succ
        (Z.succ (Z.succ (Z.succ (Z.succ (Z.succ (Z.succ (Z.succ (Z.succ
        (Z.succ (Z.succ (Z.succ (Z.succ (Z.succ (Z.succ (Z.succ (Z.succ
        (Z.succ (Z.succ (Z.succ (Z.succ (Z.succ (Z.succ (Z.succ (Z.succ
        (Z.succ (Z.succ (Z.succ (Z.succ (Z.succ (Z.succ (Z.succ (Z.succ
        (Z.succ (Z.succ
        Z.zero))))))))))))))))))))))))))))))))))))))))))))))))))))))))))))))))
        n) (Z.succ (Z.succ Z.zero)))

(** val place_of : Z.t -> Z.t **)

let place_of n =
  Nat.div n
    (Z.mul (Z.succ (Z.succ Z.zero))
      (Nat.pow (Z.succ (Z.succ (Z.succ (Z.succ Z.zero))))
        (Nat.sub (Z.succ (Z.succ (Z.succ (Z.succ (Z.succ (Z.succ (Z.succ
          (Z.succ (Z.succ (Z.succ (Z.succ (Z.succ (Z.succ (Z.succ (Z.succ
          (Z.succ (Z.succ (Z.succ (Z.succ (Z.succ (Z.succ (Z.succ (Z.succ
          (Z.succ (Z.succ (Z.succ (Z.succ (Z.succ (Z.succ (Z.succ
          Z.zero)))))))))))))))))))))))))))))) (level_of n))))

(** val id_at : Z.t -> Z.t -> Z.t **)

let id_at k m =
  Z.mul (Z.add (Z.mul (Z.succ (Z.succ Z.zero)) m) (Z.succ Z.zero))
    (Nat.pow (Z.succ (Z.succ (Z.succ (Z.succ Z.zero))))
      (Nat.sub (Z.succ (Z.succ (Z.succ (Z.succ (Z.succ (Z.succ (Z.succ
        (Z.succ (Z.succ (Z.succ (Z.succ (Z.succ (Z.succ (Z.succ (Z.succ
        (Z.succ (Z.succ (Z.succ (Z.succ (Z.succ (Z.succ (Z.succ (Z.succ
        (Z.succ (Z.succ (Z.succ (Z.succ (Z.succ (Z.succ (Z.succ
        Z.zero)))))))))))))))))))))))))))))) k))

(** val descendant_of : Z.t -> Z.t -> Z.t -> Z.t **)

let descendant_of n k i =
  id_at k
    (Z.add
      (Z.mul (place_of n)
        (Nat.pow (Z.succ (Z.succ (Z.succ (Z.succ Z.zero))))
          (Nat.sub k (level_of n)))) i)

(** val cut_level : Z.t -> Z.t -> Z.t -> Z.t **)

let cut_level level least modulus =
  Z.min
    (Z.add least
      (Z.mul
        (Nat.div
          (Z.add (Nat.sub level least) (Nat.sub modulus (Z.succ Z.zero)))
          modulus) modulus)) (Z.succ (Z.succ (Z.succ (Z.succ (Z.succ (Z.succ
    (Z.succ (Z.succ (Z.succ (Z.succ (Z.succ (Z.succ (Z.succ (Z.succ (Z.succ
    (Z.succ (Z.succ (Z.succ (Z.succ (Z.succ (Z.succ (Z.succ (Z.succ (Z.succ
    (Z.succ (Z.succ (Z.succ (Z.succ (Z.succ (Z.succ
    Z.zero))))))))))))))))))))))))))))))

(** val cells_in : Z.t -> Z.t -> Z.t list **)

let cells_in t c =
  map (descendant_of c t)
    (range_with_len Z.zero
      (Nat.pow (Z.succ (Z.succ (Z.succ (Z.succ Z.zero))))
        (Nat.sub t (level_of c))))

(** val denormalised : Z.t -> Z.t -> Z.t list -> Z.t list **)

let denormalised least modulus u =
  flat_map (fun c -> cells_in (cut_level (level_of c) least modulus) c) u

(** val of_a_face : Z.t **)

let of_a_face =
  Nat.pow (Z.succ (Z.succ (Z.succ (Z.succ Z.zero)))) (Z.succ (Z.succ (Z.succ
    (Z.succ (Z.succ (Z.succ (Z.succ (Z.succ (Z.succ (Z.succ (Z.succ (Z.succ
    (Z.succ (Z.succ (Z.succ (Z.succ (Z.succ (Z.succ (Z.succ (Z.succ (Z.succ
    (Z.succ (Z.succ (Z.succ (Z.succ (Z.succ (Z.succ (Z.succ (Z.succ (Z.succ
    Z.zero))))))))))))))))))))))))))))))

(** val lowest_bit : Z.t -> Z.t **)

let lowest_bit n =
  sub n (Z.logand n (sub n (Z.succ Z.zero)))

(** val is_cell : Z.t -> bool **)

let is_cell n =
  let size = lowest_bit n in
  (&&) (Z.lt Z.zero n)
    ((&&)
      (Z.lt n
        (Z.mul (Z.succ (Z.succ (Z.succ (Z.succ (Z.succ (Z.succ (Z.succ
          (Z.succ (Z.succ (Z.succ (Z.succ (Z.succ Z.zero))))))))))))
          of_a_face))
      ((&&) (Z.leq size of_a_face)
        (Z.equal (Nat.modulo size (Z.succ (Z.succ (Z.succ Z.zero)))) (Z.succ
          Z.zero))))

(** val family : Z.t -> Z.t -> Z.t -> Z.t -> bool **)

let family a b c d =
  let size = lowest_bit a in
  (&&) (Z.lt size of_a_face)
    ((&&) (Z.equal b (Z.add a (Z.mul (Z.succ (Z.succ Z.zero)) size)))
      ((&&)
        (Z.equal c
          (Z.add a (Z.mul (Z.succ (Z.succ (Z.succ (Z.succ Z.zero)))) size)))
        ((&&)
          (Z.equal d
            (Z.add a
              (Z.mul (Z.succ (Z.succ (Z.succ (Z.succ (Z.succ (Z.succ
                Z.zero)))))) size)))
          (Z.equal
            (Nat.modulo a
              (Z.mul (Z.succ (Z.succ (Z.succ (Z.succ (Z.succ (Z.succ (Z.succ
                (Z.succ Z.zero)))))))) size)) size))))

type span = Z.t*Z.t

(** val span_of : Z.t -> span **)

let span_of c =
  let size = lowest_bit c in
  (Nat.div (sub c size) (Z.succ (Z.succ Z.zero))),(Nat.div (Z.add c size)
                                                    (Z.succ (Z.succ Z.zero)))

(** val in_span : Z.t -> span -> bool **)

let in_span x s =
  (&&) (Z.leq (fst s) x) (Z.lt x (snd s))

(** val has : span list -> Z.t -> bool **)

let has spans x =
  existsb (in_span x) spans

(** val first_wrong : Z.t list -> Z.t option **)

let rec first_wrong = function
| [] -> None
| c::r -> if is_cell c then first_wrong r else Some c

(** val first_family : Z.t list -> Z.t option **)

let rec first_family = function
| [] -> None
| a::r ->
  (match r with
   | [] -> None
   | b::l ->
     (match l with
      | [] -> None
      | c::l0 ->
        (match l0 with
         | [] -> None
         | d::_ -> if family a b c d then Some a else first_family r)))

(** val first_back : Z.t -> span list -> Z.t option **)

let rec first_back from = function
| [] -> None
| s::r ->
  if (&&) (Z.leq from (fst s)) (Z.leq (fst s) (snd s))
  then first_back (snd s) r
  else Some (fst s)

(** val spans_onto : Z.t list -> span list -> span list **)

let rec spans_onto cells spans =
  match cells with
  | [] -> spans
  | c::r -> spans_onto r ((span_of c)::spans)

(** val deal : span list -> span list -> span list -> span list*span list **)

let rec deal spans one other =
  match spans with
  | [] -> one,other
  | s::r -> deal r other (s::one)

(** val merge_onto : span list -> span list -> span list -> span list **)

let rec merge_onto xs =
  let rec go ys merged =
    match xs with
    | [] -> rev_append ys merged
    | x::r ->
      (match ys with
       | [] -> rev_append xs merged
       | y::s ->
         if Z.leq (fst x) (fst y)
         then merge_onto r ys (x::merged)
         else go s (y::merged))
  in go

(** val sorted : Z.t -> span list -> span list **)

let rec sorted halvings spans =
  (fun z s n -> if Z.sign n = 0 then z () else s (Z.pred n))
    (fun _ -> spans)
    (fun h ->
    match spans with
    | [] -> spans
    | _::l ->
      (match l with
       | [] -> spans
       | _::_ ->
         let one,other = deal spans [] [] in
         rev_append (merge_onto (sorted h one) (sorted h other) []) []))
    halvings

(** val joined : span -> span list -> span list -> span list **)

let rec joined last spans before =
  match spans with
  | [] -> rev_append before (last::[])
  | s::r ->
    if (&&) (Z.leq (fst last) (fst s)) (Z.leq (fst s) (snd last))
    then joined ((fst last),(Z.max (snd last) (snd s))) r before
    else joined s r (last::before)

(** val ascending_spans : span list -> span list **)

let ascending_spans spans =
  match first_back Z.zero spans with
  | Some _ ->
    (match sorted (Z.succ (Z.succ (Z.succ (Z.succ (Z.succ (Z.succ (Z.succ
             (Z.succ (Z.succ (Z.succ (Z.succ (Z.succ (Z.succ (Z.succ (Z.succ
             (Z.succ (Z.succ (Z.succ (Z.succ (Z.succ (Z.succ (Z.succ (Z.succ
             (Z.succ (Z.succ (Z.succ (Z.succ (Z.succ (Z.succ (Z.succ (Z.succ
             (Z.succ (Z.succ (Z.succ (Z.succ (Z.succ (Z.succ (Z.succ (Z.succ
             (Z.succ (Z.succ (Z.succ (Z.succ (Z.succ (Z.succ (Z.succ (Z.succ
             (Z.succ (Z.succ (Z.succ (Z.succ (Z.succ (Z.succ (Z.succ (Z.succ
             (Z.succ (Z.succ (Z.succ (Z.succ (Z.succ (Z.succ (Z.succ (Z.succ
             (Z.succ
             Z.zero))))))))))))))))))))))))))))))))))))))))))))))))))))))))))))))))
             spans with
     | [] -> spans
     | s::r -> joined s r [])
  | None -> spans

(** val spans_of : Z.t list -> span list **)

let spans_of cells =
  rev_append (spans_onto cells []) []

(** val leaves_of : Z.t list -> span list **)

let leaves_of cells =
  ascending_spans (spans_of cells)

(** val trim : Z.t -> span list -> span list **)

let rec trim p spans = match spans with
| [] -> []
| s::r -> if Z.leq (snd s) p then trim p r else spans

(** val here : Z.t -> span list -> bool **)

let here p = function
| [] -> false
| s::_ -> Z.leq (fst s) p

(** val sooner : Z.t -> span list -> Z.t option -> Z.t option **)

let sooner p spans than =
  match spans with
  | [] -> than
  | s::_ ->
    let q = if Z.leq (fst s) p then snd s else fst s in
    Some (match than with
          | Some t -> Z.min q t
          | None -> q)

type found =
| Nowhere
| At of Z.t
| Endless

(** val differing :
    (bool -> bool -> bool) -> Z.t -> Z.t -> span list -> span list -> span
    list -> found **)

let rec differing op steps p a b out =
  (fun z s n -> if Z.sign n = 0 then z () else s (Z.pred n))
    (fun _ -> Endless)
    (fun steps0 ->
    let a0 = trim p a in
    let b0 = trim p b in
    let out0 = trim p out in
    if eqb (here p out0) (op (here p a0) (here p b0))
    then (match sooner p a0 (sooner p b0 (sooner p out0 None)) with
          | Some q -> differing op steps0 q a0 b0 out0
          | None -> Nowhere)
    else At p)
    steps

(** val ends_and : span list -> Z.t -> Z.t **)

let rec ends_and spans n =
  match spans with
  | [] -> n
  | _::r -> ends_and r (Z.succ (Z.succ n))

(** val first_difference :
    (bool -> bool -> bool) -> span list -> span list -> span list -> found **)

let first_difference op a b out =
  match first_back Z.zero a with
  | Some _ -> Endless
  | None ->
    (match first_back Z.zero b with
     | Some _ -> Endless
     | None ->
       (match first_back Z.zero out with
        | Some _ -> Endless
        | None ->
          differing op
            (ends_and a (ends_and b (ends_and out (Z.succ Z.zero)))) Z.zero a
            b out))

type verdict =
| Accepted
| NoCell of Z.t
| Descends of Z.t
| Mergeable of Z.t
| Differs of Z.t
| Unknown

(** val checked :
    (bool -> bool -> bool) -> span list -> span list -> Z.t list -> verdict **)

let checked op a b out =
  match first_wrong out with
  | Some c -> NoCell c
  | None ->
    let spans = spans_of out in
    (match first_back Z.zero spans with
     | Some x -> Descends x
     | None ->
       (match first_family out with
        | Some c -> Mergeable c
        | None ->
          (match first_difference op a b spans with
           | Nowhere -> Accepted
           | At x -> Differs x
           | Endless -> Unknown)))

type question =
| Union of Z.t list * Z.t list
| Intersection of Z.t list * Z.t list
| Difference of Z.t list * Z.t list
| SymmetricDifference of Z.t list * Z.t list
| Complement of Z.t list
| Normalise of Z.t list

(** val lists_of : question -> Z.t list*Z.t list **)

let lists_of = function
| Union (a, b) -> a,b
| Intersection (a, b) -> a,b
| Difference (a, b) -> a,b
| SymmetricDifference (a, b) -> a,b
| Complement a -> a,[]
| Normalise a -> a,[]

(** val all_leaves : span list **)

let all_leaves =
  (Z.zero,(Z.mul (Z.succ (Z.succ (Z.succ (Z.succ (Z.succ (Z.succ Z.zero))))))
            of_a_face))::[]

(** val verdict_on : question -> Z.t list -> verdict **)

let verdict_on q out =
  match q with
  | Union (a, b) ->
    checked (fun b1 b2 -> if b1 then true else b2) (leaves_of a)
      (leaves_of b) out
  | Intersection (a, b) -> checked (&&) (leaves_of a) (leaves_of b) out
  | Difference (a, b) ->
    checked (fun s t -> (&&) s (negb t)) (leaves_of a) (leaves_of b) out
  | SymmetricDifference (a, b) -> checked xorb (leaves_of a) (leaves_of b) out
  | Complement a ->
    checked (fun s t -> (&&) s (negb t)) all_leaves (leaves_of a) out
  | Normalise a -> checked (fun s _ -> s) (leaves_of a) [] out

type judgement =
| NotAsked of Z.t
| Judged of verdict

(** val judged : question -> Z.t list -> judgement **)

let judged q out =
  let a,b = lists_of q in
  (match first_wrong a with
   | Some c -> NotAsked c
   | None ->
     (match first_wrong b with
      | Some c -> NotAsked c
      | None -> Judged (verdict_on q out)))

type relation =
| Contains_
| Intersects

type answer =
| Yes
| No
| NoAnswer of Z.t

(** val answered : relation -> Z.t list -> Z.t list -> answer **)

let answered r a b =
  match first_wrong a with
  | Some c -> NoAnswer c
  | None ->
    (match first_wrong b with
     | Some c -> NoAnswer c
     | None ->
       (match r with
        | Contains_ ->
          (match first_difference (fun s t -> (&&) t (negb s)) (leaves_of a)
                   (leaves_of b) [] with
           | Nowhere -> Yes
           | At _ -> No
           | Endless -> NoAnswer Z.zero)
        | Intersects ->
          (match first_difference (&&) (leaves_of a) (leaves_of b) [] with
           | Nowhere -> No
           | At _ -> Yes
           | Endless -> NoAnswer Z.zero)))

(** val first_unlike : Z.t -> Z.t list -> Z.t list -> Z.t option **)

let rec first_unlike place xs ys =
  match xs with
  | [] -> (match ys with
           | [] -> None
           | _::_ -> Some place)
  | x::r ->
    (match ys with
     | [] -> Some place
     | y::s ->
       if Z.equal x y then first_unlike (Z.succ place) r s else Some place)

(** val first_uncut : Z.t -> Z.t -> Z.t list -> Z.t list -> Z.t option **)

let first_uncut least modulus a out =
  first_unlike Z.zero (denormalised least modulus a) out

(** val quadrants : Z.t list **)

let quadrants =
  Z.zero::((Z.succ Z.zero)::((Z.succ (Z.succ (Z.succ Z.zero)))::((Z.succ
    (Z.succ Z.zero))::(Z.zero::((Z.succ (Z.succ Z.zero))::((Z.succ (Z.succ
    (Z.succ Z.zero)))::((Z.succ Z.zero)::((Z.succ (Z.succ (Z.succ
    Z.zero)))::((Z.succ (Z.succ Z.zero))::(Z.zero::((Z.succ Z.zero)::((Z.succ
    (Z.succ (Z.succ Z.zero)))::((Z.succ Z.zero)::(Z.zero::((Z.succ (Z.succ
    Z.zero))::[])))))))))))))))

(** val quadrant : Z.t -> Z.t -> Z.t **)

let quadrant o p =
  slice_index quadrants
    (Z.add (Z.mul (Z.succ (Z.succ (Z.succ (Z.succ Z.zero)))) o) p)

(** val turn : Z.t -> Z.t **)

let turn p =
  slice_index ((Z.succ Z.zero)::(Z.zero::(Z.zero::((Z.succ (Z.succ (Z.succ
    Z.zero)))::[])))) p

type rect = { rect__face : Z.t; rect__i0 : Z.t; rect__i1 : Z.t;
              rect__j0 : Z.t; rect__j1 : Z.t }

(** val widened : Z.t -> span -> span **)

let widened size s =
  (Z.mul (Nat.div (fst s) size) size),(Z.mul
                                        (Nat.div
                                          (Z.add (snd s)
                                            (sub size (Z.succ Z.zero))) size)
                                        size)

(** val widened_onto : Z.t -> span list -> span list -> span list **)

let rec widened_onto size spans before =
  match spans with
  | [] -> before
  | s::r -> widened_onto size r ((widened size s)::before)

(** val blocks_of : Z.t -> span list -> span list **)

let blocks_of size spans =
  ascending_spans (rev_append (widened_onto size spans []) [])

(** val with_gap : Z.t -> Z.t -> span list -> span list **)

let with_gap from to0 before =
  if Z.lt from to0 then (from,to0)::before else before

(** val gaps_onto : Z.t -> Z.t -> span list -> span list -> span list **)

let rec gaps_onto from to0 spans before =
  match spans with
  | [] -> with_gap from to0 before
  | s::r -> gaps_onto (snd s) to0 r (with_gap from (fst s) before)

(** val gaps_of : span list -> span list **)

let gaps_of spans =
  rev_append
    (gaps_onto Z.zero
      (Z.mul (Z.succ (Z.succ (Z.succ (Z.succ (Z.succ (Z.succ (Z.succ (Z.succ
        (Z.succ (Z.succ (Z.succ (Z.succ Z.zero)))))))))))) of_a_face) spans
      []) []

(** val touches : Z.t -> Z.t -> Z.t -> Z.t -> bool **)

let touches least most from side =
  (&&) (Z.leq least most)
    ((&&) (Z.leq from most) (Z.lt least (Z.add from side)))

(** val lies : Z.t -> Z.t -> Z.t -> Z.t -> bool **)

let lies least most from side =
  (&&) (Z.leq least from) (Z.leq (Z.add from side) (Z.succ most))

(** val squares_onto :
    bool -> rect -> Z.t -> Z.t -> Z.t -> Z.t -> Z.t -> Z.t -> span list ->
    span list **)

let rec squares_onto is_outer r down last orientation first x y before =
  let side = Nat.pow (Z.succ (Z.succ Z.zero)) (Z.add down last) in
  if (&&) (touches r.rect__i0 r.rect__i1 x side)
       (touches r.rect__j0 r.rect__j1 y side)
  then if (&&) (lies r.rect__i0 r.rect__i1 x side)
            (lies r.rect__j0 r.rect__j1 y side)
       then (first,(Z.add first
                     (Nat.pow (Z.succ (Z.succ (Z.succ (Z.succ Z.zero))))
                       (Z.add down last))))::before
       else ((fun z s n -> if Z.sign n = 0 then z () else s (Z.pred n))
               (fun _ ->
               if is_outer
               then (first,(Z.add first
                             (Nat.pow (Z.succ (Z.succ (Z.succ (Z.succ
                               Z.zero)))) last)))::before
               else before)
               (fun down0 ->
               let square = fun p ->
                 squares_onto is_outer r down0 last
                   (Z.logxor orientation (turn p))
                   (Z.add first
                     (Z.mul p
                       (Nat.pow (Z.succ (Z.succ (Z.succ (Z.succ Z.zero))))
                         (Z.add down0 last))))
                   (Z.add x
                     (Z.mul
                       (Nat.div (quadrant orientation p) (Z.succ (Z.succ
                         Z.zero)))
                       (Nat.pow (Z.succ (Z.succ Z.zero)) (Z.add down0 last))))
                   (Z.add y
                     (Z.mul
                       (Nat.modulo (quadrant orientation p) (Z.succ (Z.succ
                         Z.zero)))
                       (Nat.pow (Z.succ (Z.succ Z.zero)) (Z.add down0 last))))
               in
               square (Z.succ (Z.succ (Z.succ Z.zero)))
                 (square (Z.succ (Z.succ Z.zero))
                   (square (Z.succ Z.zero) (square Z.zero before))))
               down)
  else before

(** val squares_of : bool -> Z.t -> rect -> span list **)

let squares_of is_outer level r =
  let last =
    sub (Z.succ (Z.succ (Z.succ (Z.succ (Z.succ (Z.succ (Z.succ (Z.succ
      (Z.succ (Z.succ (Z.succ (Z.succ (Z.succ (Z.succ (Z.succ (Z.succ (Z.succ
      (Z.succ (Z.succ (Z.succ (Z.succ (Z.succ (Z.succ (Z.succ (Z.succ (Z.succ
      (Z.succ (Z.succ (Z.succ (Z.succ Z.zero))))))))))))))))))))))))))))))
      level
  in
  let face = r.rect__face in
  rev_append
    (squares_onto is_outer r
      (sub (Z.succ (Z.succ (Z.succ (Z.succ (Z.succ (Z.succ (Z.succ (Z.succ
        (Z.succ (Z.succ (Z.succ (Z.succ (Z.succ (Z.succ (Z.succ (Z.succ
        (Z.succ (Z.succ (Z.succ (Z.succ (Z.succ (Z.succ (Z.succ (Z.succ
        (Z.succ (Z.succ (Z.succ (Z.succ (Z.succ (Z.succ
        Z.zero)))))))))))))))))))))))))))))) last) last
      (Nat.modulo face (Z.succ (Z.succ Z.zero))) (Z.mul face of_a_face)
      Z.zero Z.zero []) []

(** val rectangle : Z.t -> Z.t -> Z.t -> Z.t -> Z.t -> rect **)

let rectangle face i0 i1 j0 j1 =
  { rect__face = face; rect__i0 = i0; rect__i1 = i1; rect__j0 = j0;
    rect__j1 = j1 }

type covering =
| OuterOf of Z.t * Z.t list
| InnerOf of Z.t * Z.t list
| Outer of Z.t * rect
| Inner of Z.t * rect

(** val cells_asked : covering -> Z.t list **)

let cells_asked = function
| OuterOf (_, a) -> a
| InnerOf (_, a) -> a
| _ -> []

(** val verdict_on_covering : covering -> Z.t list -> verdict **)

let verdict_on_covering q out =
  match q with
  | OuterOf (level, a) ->
    checked (&&)
      (blocks_of
        (Nat.pow (Z.succ (Z.succ (Z.succ (Z.succ Z.zero))))
          (sub (Z.succ (Z.succ (Z.succ (Z.succ (Z.succ (Z.succ (Z.succ
            (Z.succ (Z.succ (Z.succ (Z.succ (Z.succ (Z.succ (Z.succ (Z.succ
            (Z.succ (Z.succ (Z.succ (Z.succ (Z.succ (Z.succ (Z.succ (Z.succ
            (Z.succ (Z.succ (Z.succ (Z.succ (Z.succ (Z.succ (Z.succ
            Z.zero)))))))))))))))))))))))))))))) level)) (leaves_of a))
      all_leaves out
  | InnerOf (level, a) ->
    let spans = leaves_of a in
    (match first_back Z.zero spans with
     | Some _ -> Unknown
     | None ->
       checked (fun s t -> (&&) s (negb t)) all_leaves
         (blocks_of
           (Nat.pow (Z.succ (Z.succ (Z.succ (Z.succ Z.zero))))
             (sub (Z.succ (Z.succ (Z.succ (Z.succ (Z.succ (Z.succ (Z.succ
               (Z.succ (Z.succ (Z.succ (Z.succ (Z.succ (Z.succ (Z.succ
               (Z.succ (Z.succ (Z.succ (Z.succ (Z.succ (Z.succ (Z.succ
               (Z.succ (Z.succ (Z.succ (Z.succ (Z.succ (Z.succ (Z.succ
               (Z.succ (Z.succ Z.zero)))))))))))))))))))))))))))))) level))
           (gaps_of spans)) out)
  | Outer (level, r) -> checked (&&) (squares_of true level r) all_leaves out
  | Inner (level, r) -> checked (&&) (squares_of false level r) all_leaves out

(** val judged_covering : covering -> Z.t list -> judgement **)

let judged_covering q out =
  match first_wrong (cells_asked q) with
  | Some c -> NotAsked c
  | None -> Judged (verdict_on_covering q out)
