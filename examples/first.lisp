(defun dup (x) (cons x x))
(defthm car-dup (equal (car (dup x)) (car (cons x x))) :proof (:replace (:unfold (dup x)) (:refl (car (dup x))) (2 1)))
