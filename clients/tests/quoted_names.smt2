(declare-sort |a sort; with (signs)| 0)
(declare-const |x y| |a sort; with (signs)|)
(declare-fun |"f"| (|a sort; with (signs)| Int) Bool)
(assert (let ((|x y| |x y|) (|z z| 1)) (|"f"| |x y| |z z|))) ; a comment ) "
(assert (not (|"f"| |x y| 1)))
(check-sat)
