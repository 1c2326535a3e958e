(in-package "ACL2")

(defun first-of (x) (if (consp x) (car x) nil))

; Under a hypothesis the test of the body is true.
(defthm first-of-pair
  (implies (consp x) (equal (first-of x) (car x)))
  :proof (:implies-in (consp x)
          (:replace (:if-true (:hyp (consp x)) (car x) nil)
                    (:unfold (first-of x))
                    (2))))

; The theorem above, for (CONS A B), which is a pair by axiom 10.
(defthm first-of-cons
  (equal (first-of (cons a b)) a)
  :proof (:replace (:axiom 8 ((x a) (y b)))
                   (:implies-out
                     (:subst (:theorem first-of-pair) ((x (cons a b))))
                     (:replace (:replace (:axiom 10 ((x a) (y b)))
                                         (:refl (consp (cons a b)))
                                         (1))
                               (:axiom 1 ())
                               ()))
                   (2)))

; Both cases of a test.
(defthm same-either-way
  (equal (if (consp x) y y) y)
  :proof (:cases (consp x)
                 (:if-true (:hyp (consp x)) y y)
                 (:if-false (:hyp (not (consp x))) y y)))
