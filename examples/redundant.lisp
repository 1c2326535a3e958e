(in-package "ACL2")
(defun id (x) x)
(DEFUN id (X) ; the same function
  X)
(defthm both (equal (and x y) (if x y nil)) :proof (:refl (and x y)))
(defthm both (equal (if x y nil) (and x y)) :rule-classes nil)
(in-package "ACL2")
