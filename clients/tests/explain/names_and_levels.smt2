(set-option :print-success true)
(declare-sort U 0)(declare-fun f (U) U)(declare-fun g (U U) U)(declare-fun p (U) Bool)
(declare-const a U)(declare-const |b
c| U)
(assert (let ((F (forall ((|x y| U)) (! (= |x y| |x y|) :qid |my
q| :pattern ((f |x y|))))) (G (forall ((x U)) (! (= x x) :pattern ((f (f x))))))) (and
 (! (forall ((x U) (y U)) (! (! (= x y) :pattern ((g x y)) :pattern ((g y x))) :pattern ((f x) (f y)))) :named nn) F F)))
(assert (or (forall ((x U)) (! (= x x) :pattern ((f x)))) (p a)))
(push 1)
(assert (= (f a) (g a |b
c|)))
(echo "x")
(get-info :assertion-stack-levels)
(check-sat)
(pop 1)
(assert (forall ((x U)) (! (= x x) :pattern ((f x)))))
(assert (p (f a)))
(check-sat)
(assert (p b))
(check-sat)
