; Goals of a program over a heap: objects have fields, and a store gives a new heap.
; Each goal is asked by the negation of what has to hold; it holds where the answer is unsat.
(declare-sort Heap 0)
(declare-sort Object 0)
(declare-sort Field 0)
(declare-sort Value 0)
(declare-fun select (Heap Object Field) Value)
(declare-fun store (Heap Object Field Value) Heap)
(declare-fun allocated (Heap Object) Bool)

; What was stored is read back.
(assert (forall ((h Heap) (o Object) (f Field) (v Value)) (!
  (= (select (store h o f v) o f) v)
  :pattern ((store h o f v)))))
; Any other place is as before.
(assert (forall ((h Heap) (o Object) (f Field) (v Value) (p Object) (g Field)) (!
  (or (and (= o p) (= f g)) (= (select (store h o f v) p g) (select h p g)))
  :pattern ((select (store h o f v) p g)))))
; A store allocates nothing, and frees nothing.
(assert (forall ((h Heap) (o Object) (f Field) (v Value) (p Object)) (!
  (= (allocated (store h o f v) p) (allocated h p))
  :pattern ((allocated (store h o f v) p)))))

(declare-const start Heap)
(declare-const one Object)
(declare-const two Object)
(declare-const content Field)
(declare-const next Field)
(declare-const red Value)
(declare-const blue Value)
(assert (distinct content next))

; one.content := red; two.content := blue
(define-fun first_heap ((h Heap)) Heap (store h one content red))
(define-fun painted ((h Heap)) Heap (store (first_heap h) two content blue))

; The second object is blue.
(push 1)
(assert (not (= (select (painted start) two content) blue)))
(check-sat)
(pop 1)

; The first is still red, as they are two objects.
(push 1)
(assert (distinct one two))
(assert (not (= (select (painted start) one content) red)))
(check-sat)
(pop 1)

; Where they may be one object, nothing says so: not shown.
(push 1)
(assert (not (= (select (painted start) one content) red)))
(check-sat)
(get-info :reason-unknown)
(pop 1)

; It is red or blue at least.
(push 1)
(assert (not (= (select (painted start) one content) red)))
(assert (not (= (select (painted start) one content) blue)))
(check-sat)
(pop 1)

; The other field of both is as at the start.
(push 1)
(assert (not (and
  (= (select (painted start) one next) (select start one next))
  (= (select (painted start) two next) (select start two next)))))
(check-sat)
(pop 1)

; What was allocated still is.
(push 1)
(assert (allocated start two))
(assert (not (allocated (painted start) two)))
(check-sat)
(pop 1)

; To exchange the contents of two objects exchanges them, also where they are one.
(define-fun exchanged ((h Heap)) Heap
  (store (store h one content (select h two content)) two content (select h one content)))
(push 1)
(assert (not (and
  (= (select (exchanged start) one content) (select start two content))
  (= (select (exchanged start) two content) (select start one content)))))
(check-sat)
(pop 1)

; A call of a method leads to a heap of which its frame alone is known: it changes no object but the first.
(declare-const called Heap)
(assert (forall ((o Object) (f Field)) (!
  (or (= o one) (= (select called o f) (select (painted start) o f)))
  :pattern ((select called o f)))))
; After the call the second object is still blue, as they are two objects.
(push 1)
(assert (distinct one two))
(assert (not (= (select called two content) blue)))
(check-sat)
(pop 1)
; The first need not be red: not shown.
(push 1)
(assert (distinct one two))
(assert (not (= (select called one content) red)))
(check-sat)
(pop 1)
