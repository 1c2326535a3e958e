(in-package "ACL2")

; What a book on natural numbers begins with, each theorem by hints (docs/HINTS.md). Equations of polynomials need none.
; What is no equation needs the axioms of the order, by their numbers (docs/KERNEL.md).

; Polynomials.

(defthm square-of-sum
  (equal (* (+ a b) (+ a b)) (+ (* a a) (* 2 a b) (* b b))))

(defthm difference-of-squares
  (equal (* (+ a b) (- a b)) (- (* a a) (* b b))))

; What is no number counts as 0 in a sum, so a side that is no sum has to be an integer.
(defthm minus-of-minus
  (implies (integerp x) (equal (- (- x)) x)))

(defthm plus-then-minus
  (implies (integerp x) (equal (- (+ x y) y) x)))

; These are the rules by which reductions go on below.

(defthm product-of-sum
  (equal (* a (+ b c)) (+ (* a b) (* a c))))

(defthm less-one-plus-one
  (implies (integerp n) (equal (+ 1 (+ -1 n)) n)))

(defthm plus-one-less-one
  (implies (integerp n) (equal (+ -1 (+ 1 n)) n)))

(defthm sum-less-one
  (equal (+ -1 (+ m n)) (+ (+ -1 m) n)))

(defthm zero-plus-sum
  (equal (+ 0 (+ a b)) (+ a b)))

(defthm plus-zero
  (implies (integerp n) (equal (+ n 0) n)))

; Order. Each axiom that is used becomes a hypothesis, and what is written for its variables decides what it says.

(defthm less-is-transitive
  (implies (and (< x y) (< y z)) (< x z))
  :how ((:use 25 ())))

(defthm less-one-way
  (implies (< x y) (not (< y x)))
  :how ((:use 25 ((z x)))))

(defthm neither-less-is-equal
  (implies (and (integerp x) (integerp y) (not (< x y)) (not (< y x))) (equal x y))
  :how ((:use 26 ())))

(defthm less-then-not-more
  (implies (and (< x y) (not (< z y))) (< x z))
  :how ((:use 25 ()) (:use 26 ((x y) (y z))) (:use 31 ()) (:use 31 ((y z)))))

(defthm not-more-then-less
  (implies (and (not (< y x)) (< y z)) (< x z))
  :how ((:use 25 ()) (:use 26 ()) (:use 30 ((y z))) (:use 30 ((x y) (y z)))))

(defthm less-than-one-more
  (< x (+ 1 x))
  :how ((:use 27 ((x 0) (y 1) (z x))) (:use 30 ((y (+ 1 x))))))

; The polynomials that axiom 27 lacks here are split on: where they differ, a comparison closes the subgoal.
(defthm less-of-sums
  (equal (< (+ z x) (+ z y)) (< x y))
  :how ((:use 27 ()) (:cases (equal (+ z x) (+ x z)) (equal (+ z y) (+ y z)))))

(defthm less-adds
  (implies (and (< x y) (< z w)) (< (+ x z) (+ y w)))
  :how ((:use 27 ()) (:use less-of-sums ((z y) (x z) (y w))) (:use 25 ((x (+ x z)) (y (+ y z)) (z (+ y w))))))

(defun smaller (x y) (if (< x y) x y))
(defun larger (x y) (if (< x y) y x))

(defthm sum-of-smaller-and-larger
  (equal (+ (smaller x y) (larger x y)) (+ x y))
  :how ((:unfold smaller larger)))

(defthm smaller-is-not-larger
  (not (< (larger x y) (smaller x y)))
  :how ((:unfold smaller larger) (:use 25 ((z x)))))

; Natural numbers.

(defthm natural-is-zero-or-more
  (implies (natp n) (or (equal n 0) (< 0 n)))
  :how ((:use 26 ((x n) (y 0)))))

(defthm natural-zp-is-zero
  (implies (and (natp n) (zp n)) (equal n 0))
  :how ((:use 26 ((x n) (y 0)))))

(defthm natural-and-one
  (implies (natp n) (natp (+ 1 n)))
  :how ((:use 25 ((x n) (y (+ 1 n)) (z 0))) (:use less-than-one-more ((x n)))))

(defthm natural-below
  (implies (not (zp n)) (natp (- n 1))))

; The same as a rule for what NATP and ZP become.
(defthm not-less-below
  (implies (and (integerp n) (< 0 n)) (not (< (- n 1) 0)))
  :how ((:use natural-below ())))

(defthm positive-sum
  (implies (and (< 0 m) (not (< n 0))) (< 0 (+ m n)))
  :how ((:use 27 ((x 0) (y m) (z n))) (:use 30 ((x n) (y (+ m n))))
        (:use not-more-then-less ((x 0) (y n) (z (+ m n))))))

(defthm positive-and-one
  (implies (not (< n 0)) (< 0 (+ 1 n)))
  :how ((:use not-more-then-less ((x 0) (y n) (z (+ 1 n)))) (:use less-than-one-more ((x n)))))

(defthm sum-of-naturals
  (implies (and (natp m) (natp n)) (natp (+ m n)))
  :how ((:use less-then-not-more ((x (+ m n)) (y 0) (z m))) (:use less-of-sums ((z m) (x n) (y 0)))
        (:rewrite plus-zero)))

(defthm product-of-positives
  (implies (and (posp m) (posp n)) (posp (* m n)))
  :how ((:use 29 ((x m) (y n)))))

; Sums. In each induction N is 0 by axiom 26, or the sum up to N - 1 is what is supposed.

(defun sum-to (n) (if (zp n) 0 (+ n (sum-to (- n 1)))))

(defthm sum-to-n
  (implies (natp n) (equal (* 2 (sum-to n)) (* n (+ 1 n))))
  :how ((:induct (sum-to n)) (:use 26 ((x n) (y 0))) (:expand (sum-to n)) (:rewrite not-less-below product-of-sum)))

; By evaluation.
(defthm sum-to-100
  (equal (sum-to 100) 5050))

(defun odds (n) (if (zp n) 0 (+ (- (* 2 n) 1) (odds (- n 1)))))

(defthm odds-are-square
  (implies (natp n) (equal (odds n) (* n n)))
  :how ((:induct (odds n)) (:use 26 ((x n) (y 0))) (:expand (odds n)) (:rewrite not-less-below)))

(defun squares (n) (if (zp n) 0 (+ (* n n) (squares (- n 1)))))

(defthm squares-to-n
  (implies (natp n) (equal (* 6 (squares n)) (* n (+ 1 n) (+ 1 (* 2 n)))))
  :how ((:induct (squares n)) (:use 26 ((x n) (y 0))) (:expand (squares n)) (:rewrite not-less-below product-of-sum)))

(defun cubes (n) (if (zp n) 0 (+ (* n n n) (cubes (- n 1)))))

(defthm cubes-to-n
  (implies (natp n) (equal (* 4 (cubes n)) (* n n (+ 1 n) (+ 1 n))))
  :how ((:induct (cubes n)) (:use 26 ((x n) (y 0))) (:expand (cubes n)) (:rewrite not-less-below product-of-sum)))

; Addition and multiplication by recursion.

(defun plus (m n) (if (zp m) n (+ 1 (plus (- m 1) n))))

(defthm plus-is-sum
  (implies (and (natp m) (integerp n)) (equal (plus m n) (+ m n)))
  :how ((:induct (plus m n)) (:use 26 ((x m) (y 0))) (:expand (plus m n)) (:rewrite not-less-below)))

(defun times (m n) (if (zp m) 0 (+ n (times (- m 1) n))))

(defthm times-is-product
  (implies (natp m) (equal (times m n) (* m n)))
  :how ((:induct (times m n)) (:use 26 ((x m) (y 0))) (:expand (times m n)) (:rewrite not-less-below)))

(defthm times-either-way
  (implies (and (natp m) (natp n)) (equal (times m n) (times n m)))
  :how ((:use times-is-product ()) (:use times-is-product ((m n) (n m)))))

; Factorials.

(defun fact (n) (if (zp n) 1 (* n (fact (- n 1)))))

(defthm fact-is-integer
  (integerp (fact n))
  :how ((:expand (fact n))))

(defthm fact-is-positive
  (< 0 (fact n))
  :how ((:induct (fact n)) (:expand (fact n)) (:use 29 ((x n) (y (fact (- n 1)))))))

(defthm fact-of-one-more
  (implies (natp n) (equal (fact (+ 1 n)) (* (+ 1 n) (fact n))))
  :how ((:expand (fact (+ 1 n))) (:rewrite plus-one-less-one positive-and-one)))

(defun fact-onto (n a) (if (zp n) a (fact-onto (- n 1) (* n a))))

(defthm fact-onto-is-fact
  (implies (integerp a) (equal (fact-onto n a) (* (fact n) a)))
  :how ((:induct (fact-onto n a)) (:expand (fact-onto n a) (fact n))))

; Powers.

(defun power (x n) (if (zp n) 1 (* x (power x (- n 1)))))

(defthm power-is-integer
  (integerp (power x n))
  :how ((:expand (power x n))))

(defthm power-of-zero
  (equal (power x 0) 1)
  :how ((:expand (power x 0))))

(defthm power-of-one
  (implies (integerp x) (equal (power x 1) x))
  :how ((:expand (power x 1) (power x 0))))

(defthm one-to-a-power
  (equal (power 1 n) 1)
  :how ((:induct (power x n)) (:expand (power 1 n))))

(defthm positive-power
  (implies (< 0 x) (< 0 (power x n)))
  :how ((:induct (power x n)) (:expand (power x n)) (:use 29 ((y (power x (- n 1)))))))

(defthm power-of-product
  (equal (power (* x y) n) (* (power x n) (power y n)))
  :how ((:induct (power x n)) (:expand (power (* x y) n) (power x n) (power y n))))

(defthm power-of-one-more
  (implies (natp n) (equal (power x (+ 1 n)) (* x (power x n))))
  :how ((:expand (power x (+ 1 n))) (:rewrite plus-one-less-one positive-and-one)))

(defthm power-of-sum
  (implies (and (natp m) (natp n)) (equal (power x (+ m n)) (* (power x m) (power x n))))
  :how ((:induct (power x m)) (:use 26 ((x m) (y 0))) (:use power-is-integer ())
        (:expand (power x (+ m n)) (power x m) (power x n))
        (:rewrite not-less-below positive-sum sum-less-one)))

(defun powers (x n) (if (zp n) 1 (+ (power x n) (powers x (- n 1)))))

(defthm geometric-sum
  (implies (natp n) (equal (* (- x 1) (powers x n)) (- (* x (power x n)) 1)))
  :how ((:induct (powers x n)) (:use 26 ((x n) (y 0))) (:expand (powers x n) (power x n))
        (:rewrite not-less-below product-of-sum)))

; Even numbers.

(defun even (n) (if (zp n) t (not (even (- n 1)))))

(defthm booleanp-of-even
  (booleanp (even n))
  :how ((:expand (even n))))

(defthm even-or-odd
  (implies (natp n) (equal (even (+ 1 n)) (not (even n))))
  :how ((:expand (even (+ 1 n))) (:rewrite plus-one-less-one positive-and-one)))

; Fibonacci: two calls in one body, so an induction has two hypotheses. By default the measure is ACL2-COUNT, on which
; less is known than on NFIX. That N - 2 is less needs lemmas.

(defthm below-one-is-zero
  (implies (and (integerp n) (equal (- n 1) 0)) (equal n 1))
  :how ((:use less-one-plus-one ())))

(defthm not-less-below-two
  (implies (and (integerp n) (< 0 n) (not (equal n 1))) (not (< (- n 2) 0)))
  :how ((:use 28 ((x (- n 2)) (y 0))) (:use not-less-below ()) (:use 26 ((x (- n 1)) (y 0)))
        (:use below-one-is-zero ()) (:cases (equal (+ 1 (- n 2)) (- n 1))) (:rewrite zero-plus-sum)))

(defthm two-less-is-less
  (< (- n 2) n)
  :how ((:use 27 ((x -2) (y 0) (z n))) (:use 31 ((x (- n 2)) (y n)))))

(defun fib (n)
  (declare (xargs :measure (nfix n)
                  :how ((:measure-decreases-2 (:use less-one-way ((x 0) (y n)))
                                              (:rewrite not-less-below-two two-less-is-less)))))
  (if (zp n) 0 (if (equal n 1) 1 (+ (fib (- n 1)) (fib (- n 2))))))

(defthm fib-is-natural
  (natp (fib n))
  :how ((:induct (fib n)) (:expand (fib n)) (:use sum-of-naturals ((m (fib (- n 1))) (n (fib (- n 2)))))))

(defthm plus-one-less-two
  (equal (+ -2 (+ 1 n)) (+ -1 n)))

(defthm one-more-is-one
  (implies (and (integerp n) (equal (+ 1 n) 1)) (equal n 0))
  :how ((:use plus-one-less-one ())))

(defthm fib-of-one-more
  (implies (and (natp n) (not (equal n 0))) (equal (fib (+ 1 n)) (+ (fib n) (fib (- n 1)))))
  :how ((:use one-more-is-one ()) (:expand (fib (+ 1 n)))
        (:rewrite positive-and-one plus-one-less-one plus-one-less-two)))
