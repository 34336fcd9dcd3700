; Goals about sets: membership, union, intersection, difference and subsets.
; Each goal is asked by the negation of what has to hold; it holds where the answer is unsat.
(declare-sort Element 0)
(declare-sort ElementSet 0)
(declare-fun member (Element ElementSet) Bool)
(declare-const empty ElementSet)
(declare-fun singleton (Element) ElementSet)
(declare-fun union (ElementSet ElementSet) ElementSet)
(declare-fun intersection (ElementSet ElementSet) ElementSet)
(declare-fun difference (ElementSet ElementSet) ElementSet)
(declare-fun subset (ElementSet ElementSet) Bool)
(declare-fun witness (ElementSet ElementSet) Element)

; What is in each set.
(assert (forall ((e Element)) (! (not (member e empty)) :pattern ((member e empty)))))
(assert (forall ((e Element)) (! (member e (singleton e)) :pattern ((singleton e)))))
(assert (forall ((e Element) (f Element)) (!
  (=> (member e (singleton f)) (= e f))
  :pattern ((member e (singleton f))))))
(assert (forall ((e Element) (s ElementSet) (t ElementSet)) (!
  (= (member e (union s t)) (or (member e s) (member e t)))
  :pattern ((member e (union s t)))
  :pattern ((union s t) (member e s))
  :pattern ((union s t) (member e t)))))
(assert (forall ((e Element) (s ElementSet) (t ElementSet)) (!
  (= (member e (intersection s t)) (and (member e s) (member e t)))
  :pattern ((member e (intersection s t)))
  :pattern ((intersection s t) (member e s) (member e t)))))
(assert (forall ((e Element) (s ElementSet) (t ElementSet)) (!
  (= (member e (difference s t)) (and (member e s) (not (member e t))))
  :pattern ((member e (difference s t)))
  :pattern ((difference s t) (member e s)))))
; A subset has no element that the set has not, and what is no subset has a witness.
(assert (forall ((e Element) (s ElementSet) (t ElementSet)) (!
  (=> (subset s t) (member e s) (member e t))
  :pattern ((subset s t) (member e s)))))
(assert (forall ((s ElementSet) (t ElementSet)) (!
  (or (subset s t) (and (member (witness s t) s) (not (member (witness s t) t))))
  :pattern ((subset s t)))))
; Sets with the same elements are equal.
(assert (forall ((s ElementSet) (t ElementSet)) (!
  (=> (subset s t) (subset t s) (= s t))
  :pattern ((subset s t) (subset t s)))))

(declare-const r ElementSet)
(declare-const s ElementSet)
(declare-const t ElementSet)
(declare-const e Element)
(declare-const f Element)

; A set is a subset of its union with another.
(push 1)
(assert (not (subset s (union s t))))
(check-sat)
(pop 1)

; The union is not one of the set: not shown.
(push 1)
(assert (not (subset (union s t) s)))
(check-sat)
(get-info :reason-unknown)
(pop 1)

; But it is where the other set is a subset.
(push 1)
(assert (subset t s))
(assert (not (subset (union s t) s)))
(check-sat)
(pop 1)

; Then they are equal.
(push 1)
(assert (subset t s))
(assert (or (not (subset (union s t) s)) (not (subset s (union s t))) (not (= (union s t) s))))
(check-sat)
(pop 1)

; Subsets of subsets are subsets.
(push 1)
(assert (subset r s))
(assert (subset s t))
(assert (not (subset r t)))
(check-sat)
(pop 1)

; The sides of a union may be exchanged.
(push 1)
(assert (subset (union s t) (union t s)))
(assert (subset (union t s) (union s t)))
(assert (not (= (union s t) (union t s))))
(check-sat)
(pop 1)
(push 1)
(assert (not (subset (union s t) (union t s))))
(check-sat)
(pop 1)

; Intersection distributes over union, one way.
(push 1)
(assert (not (subset (intersection r (union s t)) (union (intersection r s) (intersection r t)))))
(check-sat)
(pop 1)

; What was taken away is not there.
(push 1)
(assert (member e (difference s (singleton e))))
(check-sat)
(pop 1)

; What else was there still is.
(push 1)
(assert (member f s))
(assert (distinct e f))
(assert (not (member f (difference s (singleton e)))))
(check-sat)
(pop 1)

; Where it may be the same element, nothing says so: not shown.
(push 1)
(assert (member f s))
(assert (not (member f (difference s (singleton e)))))
(check-sat)
(pop 1)

; A set of which an element is known is not empty.
(push 1)
(assert (member e s))
(assert (subset s empty))
(check-sat)
(pop 1)
