; A forall below two negations is no form of ours: it is written without them.
(set-logic UF)
(declare-sort U 0)
(declare-fun p (U) Bool)
(declare-const a U)
(assert (not (not (forall ((x U)) (! (p x) :pattern ((p x)))))))
(check-sat)
(assert (not (p a)))
(check-sat)
