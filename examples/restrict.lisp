; A function that counts down, on natural numbers alone.

(defun fact (n)
  (if (zp n) 1 (* n (fact (- n 1)))))

; Where n is a natural number, so is what the recursive call is on: the event proves that, and from it that fact-nat is fact
; there.
(restrict fact (natp n) :new-name fact-nat :thm-name fact-of-natural)

(value-triple (fact-nat 5))
(value-triple (fact 'a))
(value-triple (fact-nat 'a))

; The value outside can be chosen.
(restrict fact (natp n) :new-name fact-or-zero :thm-name fact-or-zero-of-natural :undefined 0)

(value-triple (fact-or-zero 'a))

; The theorem of a restriction is a theorem like any other.
(defthm both-restrictions
  (implies (natp n) (equal (fact-nat n) (fact-or-zero n)))
  :how ((:use fact-of-natural ()) (:use fact-or-zero-of-natural ())))
