; Goals about sequences, with a length, an element at each index, and appending. Numbers are a sort with zero, a
; successor, a sum and an order, of which these axioms say all that is known.
; Each goal is asked by the negation of what has to hold; it holds where the answer is unsat.
(declare-sort Number 0)
(declare-sort Element 0)
(declare-sort Sequence 0)
(declare-const zero Number)
(declare-fun successor (Number) Number)
(declare-fun plus (Number Number) Number)
(declare-fun less (Number Number) Bool)
(declare-const empty Sequence)
(declare-fun build (Sequence Element) Sequence)
(declare-fun append (Sequence Sequence) Sequence)
(declare-fun length (Sequence) Number)
(declare-fun at (Sequence Number) Element)

; A number is less than its successor, and none is less than itself; the order is transitive.
(assert (forall ((n Number)) (! (less n (successor n)) :pattern ((successor n)))))
(assert (forall ((n Number)) (! (not (less n n)) :pattern ((less n n)))))
(assert (forall ((k Number) (m Number) (n Number)) (!
  (=> (less k m) (less m n) (less k n))
  :pattern ((less k m) (less m n)))))
; Sums, by the second number.
(assert (forall ((n Number)) (! (= (plus n zero) n) :pattern ((plus n zero)))))
(assert (forall ((m Number) (n Number)) (!
  (= (plus m (successor n)) (successor (plus m n)))
  :pattern ((plus m (successor n))))))

; Lengths.
(assert (= (length empty) zero))
(assert (forall ((s Sequence) (e Element)) (!
  (= (length (build s e)) (successor (length s)))
  :pattern ((build s e)))))
(assert (forall ((s Sequence) (t Sequence)) (!
  (= (length (append s t)) (plus (length s) (length t)))
  :pattern ((append s t)))))
; Elements: the one that was added is last, and the others stay.
(assert (forall ((s Sequence) (e Element)) (!
  (= (at (build s e) (length s)) e)
  :pattern ((build s e)))))
(assert (forall ((s Sequence) (e Element) (n Number)) (!
  (=> (less n (length s)) (= (at (build s e) n) (at s n)))
  :pattern ((at (build s e) n)))))
(assert (forall ((s Sequence) (t Sequence) (n Number)) (!
  (=> (less n (length s)) (= (at (append s t) n) (at s n)))
  :pattern ((at (append s t) n)))))
(assert (forall ((s Sequence) (t Sequence) (n Number)) (!
  (=> (less n (length t)) (= (at (append s t) (plus (length s) n)) (at t n)))
  :pattern ((append s t) (at t n)))))

(declare-const s Sequence)
(declare-const t Sequence)
(declare-const a Element)
(declare-const b Element)
(define-fun pair () Sequence (build (build empty a) b))

; A pair has two elements.
(push 1)
(assert (not (= (length pair) (successor (successor zero)))))
(check-sat)
(pop 1)

; Its first element is a.
(push 1)
(assert (not (= (at pair zero) a)))
(check-sat)
(pop 1)

; Its second is b.
(push 1)
(assert (not (= (at pair (successor zero)) b)))
(check-sat)
(pop 1)

; To add an element to s makes it longer.
(push 1)
(assert (not (less (length s) (length (build s a)))))
(check-sat)
(pop 1)

; So s is never what it becomes.
(push 1)
(assert (= s (build s a)))
(check-sat)
(pop 1)

; What is appended to the empty sequence keeps its length, since the sums say so only by the second number: not shown.
(push 1)
(assert (not (= (length (append empty t)) (length t))))
(check-sat)
(get-info :reason-unknown)
(pop 1)

; The empty sequence appended to s does.
(push 1)
(assert (not (= (length (append s empty)) (length s))))
(check-sat)
(pop 1)

; The first element of s is the first of what t is appended to.
(push 1)
(assert (less zero (length s)))
(assert (not (= (at (append s t) zero) (at s zero))))
(check-sat)
(pop 1)

; The first of t stands behind those of s.
(push 1)
(assert (less zero (length t)))
(assert (not (= (at (append s t) (length s)) (at t zero))))
(assert (= (plus (length s) zero) (length s)))
(check-sat)
(pop 1)

; Where t is not said to have an element, that is not shown.
(push 1)
(assert (not (= (at (append s t) (length s)) (at t zero))))
(assert (= (plus (length s) zero) (length s)))
(check-sat)
(pop 1)
