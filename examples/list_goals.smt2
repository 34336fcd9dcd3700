; Goals about lists, and about a function over lists whose calls must end: each call inside a call is of a list that is
; smaller, by a measure into an order of which only this much is known: it is transitive, and nothing is below itself.
; Each goal is asked by the negation of what has to hold; it holds where the answer is unsat.
(declare-sort Item 0)
(declare-sort ItemList 0)
(declare-sort Rank 0)
(declare-const nil ItemList)
(declare-fun cons (Item ItemList) ItemList)
(declare-fun head (ItemList) Item)
(declare-fun tail (ItemList) ItemList)
(declare-fun rank (ItemList) Rank)
(declare-fun below (Rank Rank) Bool)
(declare-fun append (ItemList ItemList) ItemList)
(declare-fun contains (ItemList Item) Bool)

; Lists: what cons puts together, and that each list whose tail is named is nil or was put together.
(assert (forall ((i Item) (l ItemList)) (!
  (and (= (head (cons i l)) i) (= (tail (cons i l)) l) (not (= (cons i l) nil)))
  :pattern ((cons i l)))))
(assert (forall ((l ItemList)) (!
  (or (= l nil) (= l (cons (head l) (tail l))))
  :pattern ((tail l)))))

(declare-const l ItemList)
(declare-const m ItemList)
(declare-const i Item)
(declare-const j Item)

; A function that unfolds without an end, since each instance has a new call: the rounds are spent.
(declare-fun next (Item) Item)
(declare-fun from (Item) ItemList)
(push 1)
(assert (forall ((i Item)) (! (= (from i) (cons i (from (next i)))) :pattern ((from i)))))
(assert (= (head (from i)) j))
(check-sat)
(get-info :reason-unknown)
; But one of them is enough to see that the item it begins with is the first.
(assert (not (= i j)))
(check-sat)
(pop 1)

; The order.
(assert (forall ((r Rank)) (! (not (below r r)) :pattern ((below r r)))))
(assert (forall ((q Rank) (r Rank) (s Rank)) (!
  (=> (below q r) (below r s) (below q s))
  :pattern ((below q r) (below r s)))))
; The measure.
(assert (forall ((i Item) (l ItemList)) (! (below (rank l) (rank (cons i l))) :pattern ((cons i l)))))

; A call of the tail ends, where the list is not nil.
(push 1)
(assert (not (= l nil)))
(assert (not (below (rank (tail l)) (rank l))))
(check-sat)
(pop 1)

; Where it may be nil, that is not shown.
(push 1)
(assert (not (below (rank (tail l)) (rank l))))
(check-sat)
(get-info :reason-unknown)
(pop 1)

; A call of the tail of the tail ends too.
(push 1)
(assert (not (= l nil)))
(assert (not (= (tail l) nil)))
(assert (not (below (rank (tail (tail l))) (rank l))))
(check-sat)
(pop 1)

; A call of a list that was put together anew need not end: not shown.
(push 1)
(assert (not (= l nil)))
(assert (not (below (rank (cons i (tail l))) (rank l))))
(check-sat)
(pop 1)

; No list is its own tail, and none is the tail of its tail.
(push 1)
(assert (= l (cons i l)))
(check-sat)
(pop 1)
(push 1)
(assert (= l (cons i (cons j l))))
(check-sat)
(pop 1)

; Two functions by cases, each case by a trigger of its own.
(assert (forall ((m ItemList)) (! (= (append nil m) m) :pattern ((append nil m)))))
(assert (forall ((i Item) (l ItemList) (m ItemList)) (!
  (= (append (cons i l) m) (cons i (append l m)))
  :pattern ((append (cons i l) m)))))
(assert (forall ((i Item)) (! (not (contains nil i)) :pattern ((contains nil i)))))
(assert (forall ((i Item) (j Item) (l ItemList)) (!
  (= (contains (cons j l) i) (or (= i j) (contains l i)))
  :pattern ((contains (cons j l) i)))))

; A list of two items contains the second.
(push 1)
(assert (not (contains (cons i (cons j nil)) j)))
(check-sat)
(pop 1)

; Lists that are written out are appended.
(push 1)
(assert (not (= (append (cons i (cons j nil)) m) (cons i (cons j m)))))
(check-sat)
(pop 1)

; What is appended to contains the first item still.
(push 1)
(assert (not (contains (append (cons i l) m) i)))
(check-sat)
(pop 1)

; To append nil changes nothing, which would need an induction: not shown.
(push 1)
(assert (not (= (append l nil) l)))
(check-sat)
(pop 1)

; The step of that induction: it holds of a list where it holds of its tail.
(push 1)
(assert (= (append (tail l) nil) (tail l)))
(assert (not (= l nil)))
(assert (not (= (append l nil) l)))
(check-sat)
(pop 1)
