(in-package "ACL2")

; The sum of the numbers from 1 to N, doubled, is N (N + 1). This is an induction on numbers: the arithmetic is done by
; comparing polynomials, and what is no number is ruled out by a hypothesis.

(defun sum-to (n)
  (declare (xargs :proof ((:measure-natp (:axiom 33 ((x n))))
                          (:measure-decreases-1
                            (:implies-out (:theorem acl2-count-minus-1)
                                          (:hyp (not (zp n))))))))
  (if (zp n)
      0
      (+ n (sum-to (- n 1)))))

(value-triple (sum-to 100))

; What NATP says: its body is (IF (INTEGERP N) (NOT (< N 0)) NIL). Where N is no integer this is NIL, so that NIL would
; be true. (NOT NIL) is T by evaluation, and contradicts it.
(defthm natural-is-integer
  (implies (natp n) (integerp n))
  :proof (:implies-in (natp n)
           (:cases (integerp n)
             (:hyp (integerp n))
             (:contra (:replace (:replace (:if-false (:hyp (not (integerp n))) (not (< n 0)) nil)
                                          (:unfold (natp n))
                                          (2))
                                (:hyp (natp n))
                                ())
                      (:replace (:replace (:eval (not nil)) (:refl (not nil)) (1))
                                (:axiom 1 ())
                                ())
                      (integerp n)))))

(defthm natural-is-not-negative
  (implies (natp n) (not (< n 0)))
  :proof (:implies-in (natp n)
           (:replace (:replace (:if-true (:implies-out (:theorem natural-is-integer) (:hyp (natp n)))
                                         (not (< n 0))
                                         nil)
                               (:unfold (natp n))
                               (2))
                     (:hyp (natp n))
                     ())))

; A natural number that is ZP is 0: neither is it less than 0, nor 0 less than it. Axiom 26 says that (+ 0 N) and
; (+ 0 0) are equal then. The first is N by axiom 23, and the second 0 as a polynomial.
(defthm natural-zp-is-zero
  (implies (natp n) (implies (zp n) (equal n 0)))
  :proof (:implies-in (natp n)
           (:implies-in (zp n)
             (:replace
               (:ring (+ 0 0) 0)
               (:replace
                 (:implies-out (:axiom 23 ((x n)))
                               (:implies-out (:theorem natural-is-integer) (:hyp (natp n))))
                 (:implies-out
                   (:implies-out (:axiom 26 ((x n) (y 0)))
                                 (:implies-out (:theorem natural-is-not-negative) (:hyp (natp n))))
                   (:replace
                     (:replace (:if-true (:implies-out (:theorem natural-is-integer) (:hyp (natp n)))
                                         (not (< 0 n))
                                         t)
                               (:unfold (zp n))
                               (2))
                     (:hyp (zp n))
                     ()))
                 (1))
               (2)))))

; Above 0 the number below is natural: a theorem that each book begins with says that (NATP (- N 1)) equals T, and T is
; true by axiom 1.
(defthm natural-below
  (implies (not (zp n)) (natp (- n 1)))
  :proof (:implies-in (not (zp n))
           (:replace (:replace (:implies-out (:theorem natp-minus-1) (:hyp (not (zp n))))
                               (:refl (natp (- n 1)))
                               (1))
                     (:axiom 1 ())
                     ())))

(defthm sum-to-n
  (implies (natp n) (equal (* 2 (sum-to n)) (* n (+ 1 n))))
  :proof (:induct (acl2-count n)
           (:measure sum-to 0)
           (:implies-in (natp n)
             (:cases (zp n)
               ; N is 0, and so is the sum. As polynomials (* 2 0) and (* 0 (+ 1 N)) are the same. Then N is put for
               ; the 0 on the right, and the sum for the 0 on the left.
               (:replace
                 (:replace (:replace (:if-true (:hyp (zp n)) 0 (+ n (sum-to (- n 1))))
                                     (:unfold (sum-to n))
                                     (2))
                           (:refl (sum-to n))
                           (1))
                 (:replace
                   (:replace (:implies-out (:implies-out (:theorem natural-zp-is-zero) (:hyp (natp n)))
                                           (:hyp (zp n)))
                             (:refl n)
                             (1))
                   (:ring (* 2 0) (* 0 (+ 1 n)))
                   (2 1))
                 (1 2))
               ; Above 0 the sum is N and the sum up to N - 1. The double of the latter is (N - 1) (1 + N - 1) by what
               ; is supposed. The rest is arithmetic.
               (:replace
                 (:ring (+ (* 2 n) (* (- n 1) (+ 1 (- n 1)))) (* n (+ 1 n)))
                 (:replace
                   (:implies-out
                     (:implies-out
                       (:hyp (implies (not (zp n))
                                      (implies (natp (- n 1))
                                               (equal (* 2 (sum-to (- n 1))) (* (- n 1) (+ 1 (- n 1)))))))
                       (:hyp (not (zp n))))
                     (:implies-out (:theorem natural-below) (:hyp (not (zp n)))))
                   (:replace
                     (:ring (* 2 (+ n (sum-to (- n 1)))) (+ (* 2 n) (* 2 (sum-to (- n 1)))))
                     (:replace
                       (:replace (:if-false (:hyp (not (zp n))) 0 (+ n (sum-to (- n 1))))
                                 (:unfold (sum-to n))
                                 (2))
                       (:refl (* 2 (sum-to n)))
                       (2 2))
                     (2))
                   (2 2))
                 (2))))
           (((not (zp n))
             ((n (- n 1)))
             (:measure sum-to 1)))))

; An instance: 100 is a natural number by evaluation.
(defthm sum-to-100
  (equal (* 2 (sum-to 100)) (* 100 (+ 1 100)))
  :proof (:implies-out (:subst (:theorem sum-to-n) ((n 100)))
                       (:replace (:replace (:eval (natp 100)) (:refl (natp 100)) (1))
                                 (:axiom 1 ())
                                 ())))
