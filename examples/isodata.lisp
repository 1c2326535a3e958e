; A function that counts down to zero, and one that counts up to it.

(defun down (n)
  (if (zp n) 0 (+ n (down (- n 1)))))

; The integers are represented by themselves, with the other sign.
(defiso negation integerp integerp unary-- unary--)

; Where n is an integer, so is what the recursive call is on: the event proves that, and from it both theorems.
(isodata down ((n negation)) :new-name up :new-to-old-name up-is-down :old-to-new-name down-is-up)

(value-triple (down 4))
(value-triple (up -4))
(value-triple (up 'a))

; Two arguments at once; the third keeps its representation.
(defun sum-between (n m sum)
  (if (zp n) (+ m sum) (sum-between (- n 1) m (+ n sum))))

(isodata sum-between ((n negation) (m negation)) :new-name sum-below :new-to-old-name below-is-between :old-to-new-name between-is-below)

(value-triple (sum-between 4 2 0))
(value-triple (sum-below -4 -2 0))

; Both theorems are theorems like any others.
(defthm there-and-back
  (implies (integerp n) (equal (up (- n)) (down (- (- n)))))
  :how ((:use up-is-down ((n (- n))))))
