; Functions of second order, what is true of all of them, and their instances.
(in-package "ACL2")
(include-book "kestrel/soft/top" :dir :system)

; A fold over lists, by what it does at the end and at each item.
(defunvar ?end (*) => *)
(defunvar ?step (* *) => *)
(defun2 fold (x) (if (atom x) (?end x) (?step (car x) (fold (cdr x)))))

; What is true of each fold.
(defthm fold-of-atom (implies (atom x) (equal (fold x) (?end x))) :how ((:expand (fold x))))
(defthm fold-of-cons (equal (fold (cons a b)) (?step a (fold b))) :how ((:expand (fold (cons a b)))))

; Two folds: the sum of a list of numbers, and a copy of a list.
(defun zero (x) (declare (ignore x)) 0)
(defun-inst total (fold (?end . zero) (?step . binary-+)))
(defthm-inst total-of-cons (fold-of-cons (?end . zero) (?step . binary-+)))

(defun nothing (x) (declare (ignore x)) nil)
(defun-inst copy (fold (?end . nothing) (?step . cons)))
(defthm-inst copy-of-cons (fold-of-cons (?end . nothing) (?step . cons)))

(value-triple (total '(1 2 3)))
(value-triple (copy '(1 2 3)))

; A fold whose end and whose steps give integers is an integer: two specifications, and a theorem that rests on them.
(defun-sk2 ends-in-integers () (forall (x) (integerp (?end x))))
(defun-sk2 steps-to-integers () (forall (a b) (integerp (?step a b))))
(defthm fold-is-integer
  (integerp (fold x))
  :assuming (ends-in-integers steps-to-integers)
  :how ((:expand (fold x))
        (:cases (atom x))
        (:use ends-in-integers ((x x)))
        (:use steps-to-integers ((a (car x)) (b (fold (cdr x)))))))

; Of the sum, this says the same on what its parts give, which is proved and taken away.
(defthm-inst total-is-integer-by (fold-is-integer (?end . zero) (?step . binary-+)))
(defthm zero-is-integer (integerp (zero x)) :how ((:unfold zero)))
(defthm sum-is-integer (integerp (+ a b)))
(defthm total-is-integer
  (integerp (total x))
  :proof (:discharge (:theorem zero-is-integer) (:discharge (:theorem sum-is-integer) (:theorem total-is-integer-by))))
