(in-package "ACL2")

; What a book on lists begins with, each theorem by hints (docs/HINTS.md). Two kinds of theorems come first for each
; function: what it gives on a pair that is written out, (CONS A X), and what it gives on an atom. They are the rules
; by which later reductions go on. Calls on a variable are opened by :EXPAND: such a rule would have no end.

; APPEND.

(defthm append-of-cons
  (equal (append (cons a x) y) (cons a (append x y)))
  :how ((:expand (append (cons a x) y))))

(defthm append-of-nil
  (equal (append nil y) y)
  :how ((:expand (append nil y))))

(defthm append-of-atom
  (implies (atom x) (equal (append x y) y))
  :how ((:expand (append x y))))

; The hypothesis of the induction, (IMPLIES (CONSP X) ..), is opened and split: no :CASES is needed.
(defthm append-is-associative
  (equal (append (append x y) z) (append x (append y z)))
  :how ((:induct (binary-append x y)) (:expand (append x y) (append x (append y z))) (:rewrite append-of-cons)))

; From here on it is a rule, used twice.
(defthm append-of-four
  (equal (append (append (append a b) c) d) (append a (append b (append c d))))
  :how ((:rewrite append-is-associative)))

(defthm append-to-nil
  (implies (true-listp x) (equal (append x nil) x))
  :how ((:induct (true-listp x)) (:expand (true-listp x) (append x nil))))

(defthm consp-of-append
  (equal (consp (append x y)) (or (consp x) (consp y)))
  :how ((:expand (append x y))))

(defthm car-of-append
  (equal (car (append x y)) (if (consp x) (car x) (car y)))
  :how ((:expand (append x y))))

; Lists without a rest.

(defthm true-listp-of-cons
  (equal (true-listp (cons a x)) (true-listp x))
  :how ((:expand (true-listp (cons a x)))))

(defthm true-listp-of-append
  (equal (true-listp (append x y)) (true-listp y))
  :how ((:induct (binary-append x y)) (:expand (append x y)) (:rewrite true-listp-of-cons)))

; LEN.

(defthm len-of-cons
  (equal (len (cons a x)) (+ 1 (len x)))
  :how ((:expand (len (cons a x)))))

; In both branches LEN is an integer, so this needs no induction.
(defthm len-is-integer
  (integerp (len x))
  :how ((:expand (len x))))

; Where X is an atom, (LEN Y) has to be (+ 0 (LEN Y)), which needs that it is an integer.
(defthm len-of-append
  (equal (len (append x y)) (+ (len x) (len y)))
  :how ((:induct (binary-append x y)) (:use len-is-integer ((x y))) (:expand (append x y) (len x))
        (:rewrite len-of-cons)))

(defthm len-of-append-either-way
  (equal (len (append x y)) (len (append y x)))
  :how ((:rewrite len-of-append)))

; Order. Let L be (LEN (CDR X)): by axioms 27 and 30 it is less than 1 + L. Were that less than 0, L would be too, by
; axiom 25.
(defthm len-is-natural
  (natp (len x))
  :how ((:induct (len x)) (:expand (len x)) (:use 27 ((x 0) (y 1) (z (len (cdr x)))))
        (:use 30 ((x (len (cdr x))) (y (+ 1 (len (cdr x))))))
        (:use 25 ((x (len (cdr x))) (y (+ 1 (len (cdr x)))) (z 0)))))

(defthm len-of-pair
  (implies (consp x) (equal (len x) (+ 1 (len (cdr x)))))
  :how ((:expand (len x))))

; REV.

(defun rev (x) (if (consp x) (append (rev (cdr x)) (list (car x))) nil))

(defthm rev-of-cons
  (equal (rev (cons a x)) (append (rev x) (list a)))
  :how ((:expand (rev (cons a x)))))

(defthm true-listp-of-rev
  (equal (true-listp (rev x)) t)
  :how ((:expand (rev x)) (:rewrite true-listp-of-append true-listp-of-cons)))

; What a rule needs has to be a hypothesis: APPEND-TO-NIL is used for (REV X) once, and the result is a rule.
(defthm append-of-rev-to-nil
  (equal (append (rev x) nil) (rev x))
  :how ((:use append-to-nil ((x (rev x)))) (:rewrite true-listp-of-rev)))

(defthm rev-of-append
  (equal (rev (append x y)) (append (rev y) (rev x)))
  :how ((:induct (binary-append x y)) (:expand (append x y) (rev x))
        (:rewrite rev-of-cons append-of-rev-to-nil append-is-associative)))

(defthm rev-of-rev
  (implies (true-listp x) (equal (rev (rev x)) x))
  :how ((:induct (rev x)) (:expand (rev x) (true-listp x))
        (:rewrite rev-of-append rev-of-cons append-of-cons append-of-nil)))

(defthm len-of-rev
  (equal (len (rev x)) (len x))
  :how ((:induct (rev x)) (:expand (rev x) (len x)) (:rewrite len-of-append len-of-cons)))

; REV with an accumulator does the same. The induction changes both formals.

(defun rev-onto (x y) (if (consp x) (rev-onto (cdr x) (cons (car x) y)) y))

(defthm rev-onto-is-rev
  (equal (rev-onto x y) (append (rev x) y))
  :how ((:induct (rev-onto x y)) (:expand (rev-onto x y) (rev x))
        (:rewrite append-is-associative append-of-cons append-of-nil)))

; Members.

(defun memberp (a x) (if (consp x) (if (equal a (car x)) t (memberp a (cdr x))) nil))

(defthm memberp-of-cons
  (equal (memberp a (cons b x)) (if (equal a b) t (memberp a x)))
  :how ((:expand (memberp a (cons b x)))))

(defthm booleanp-of-memberp
  (booleanp (memberp a x))
  :how ((:induct (memberp a x)) (:expand (memberp a x))))

(defthm memberp-of-append
  (equal (memberp a (append x y)) (if (memberp a x) t (memberp a y)))
  :how ((:induct (memberp a x)) (:expand (append x y) (memberp a x)) (:rewrite memberp-of-cons)))

(defthm memberp-of-rev
  (equal (memberp a (rev x)) (memberp a x))
  :how ((:induct (rev x)) (:expand (rev x) (memberp a x) (memberp a nil)) (:rewrite memberp-of-append memberp-of-cons)
        (:use booleanp-of-memberp ((x (cdr x))))))

; Subsets. The first theorem needs the induction of SUBSETP, the second that of LEN, which changes nothing but X.

(defun subsetp (x y) (if (consp x) (if (memberp (car x) y) (subsetp (cdr x) y) nil) t))

(defthm subset-of-cons
  (implies (subsetp x y) (subsetp x (cons b y)))
  :how ((:induct (subsetp x y)) (:expand (subsetp x y) (subsetp x (cons b y))) (:rewrite memberp-of-cons)))

; Axiom 11 turns (CONS (CAR X) (CDR X)) into X, so MEMBERP is opened at X.
(defthm subset-of-itself
  (subsetp x x)
  :how ((:induct (len x)) (:expand (subsetp x x) (memberp (car x) x))
        (:use subset-of-cons ((x (cdr x)) (y (cdr x)) (b (car x))))))

(defthm member-of-subset
  (implies (and (subsetp x y) (memberp a x)) (memberp a y))
  :how ((:induct (memberp a x)) (:expand (memberp a x) (subsetp x y))))

; How often an item stands in a list.

(defun how-many (a x) (if (consp x) (if (equal a (car x)) (+ 1 (how-many a (cdr x))) (how-many a (cdr x))) 0))

(defthm how-many-of-cons
  (equal (how-many a (cons b x)) (if (equal a b) (+ 1 (how-many a x)) (how-many a x)))
  :how ((:expand (how-many a (cons b x)))))

(defthm how-many-is-integer
  (integerp (how-many a x))
  :how ((:induct (how-many a x)) (:expand (how-many a x))))

(defthm how-many-of-append
  (equal (how-many a (append x y)) (+ (how-many a x) (how-many a y)))
  :how ((:induct (how-many a x)) (:use how-many-is-integer ((x y))) (:expand (append x y) (how-many a x))
        (:rewrite how-many-of-cons)))

; A list without an item.

(defun remove-all (a x)
  (if (consp x) (if (equal a (car x)) (remove-all a (cdr x)) (cons (car x) (remove-all a (cdr x)))) nil))

(defthm remove-all-of-cons
  (equal (remove-all a (cons b x)) (if (equal a b) (remove-all a x) (cons b (remove-all a x))))
  :how ((:expand (remove-all a (cons b x)))))

(defthm removed-is-no-member
  (not (memberp a (remove-all a x)))
  :how ((:induct (remove-all a x)) (:expand (remove-all a x) (memberp a nil)) (:rewrite memberp-of-cons)))

(defthm remove-all-of-append
  (equal (remove-all a (append x y)) (append (remove-all a x) (remove-all a y)))
  :how ((:induct (remove-all a x)) (:expand (append x y) (remove-all a x))
        (:rewrite remove-all-of-cons append-of-cons append-of-nil)))

(defthm remove-all-twice
  (equal (remove-all a (remove-all a x)) (remove-all a x))
  :how ((:induct (remove-all a x)) (:expand (remove-all a x) (remove-all a nil)) (:rewrite remove-all-of-cons)))

; The beginning of a list, and what is behind it.

(defun take (n x) (if (zp n) nil (if (consp x) (cons (car x) (take (- n 1) (cdr x))) nil)))
(defun drop (n x) (if (zp n) x (if (consp x) (drop (- n 1) (cdr x)) x)))
(defun nth (n x) (if (zp n) (car x) (nth (- n 1) (cdr x))))

(defthm append-of-take-and-drop
  (equal (append (take n x) (drop n x)) x)
  :how ((:induct (drop n x)) (:expand (take n x) (drop n x)) (:rewrite append-of-cons append-of-nil)))

(defthm true-listp-of-take
  (equal (true-listp (take n x)) t)
  :how ((:induct (take n x)) (:expand (take n x)) (:rewrite true-listp-of-cons)))

(defthm nth-of-zero
  (equal (nth 0 (cons a x)) a)
  :how ((:expand (nth 0 (cons a x)))))

(defthm nth-of-nil
  (equal (nth n nil) nil)
  :how ((:induct (nth n x)) (:expand (nth n nil))))

; The first item behind the beginning.
(defthm car-of-drop
  (implies (consp (drop n x)) (equal (car (drop n x)) (nth n x)))
  :how ((:induct (drop n x)) (:expand (drop n x) (nth n x))))

; Sums.

(defun sum-list (x) (if (consp x) (+ (car x) (sum-list (cdr x))) 0))

(defthm sum-list-of-cons
  (equal (sum-list (cons a x)) (+ a (sum-list x)))
  :how ((:expand (sum-list (cons a x)))))

(defthm sum-list-is-integer
  (integerp (sum-list x))
  :how ((:expand (sum-list x))))

(defthm sum-list-of-append
  (equal (sum-list (append x y)) (+ (sum-list x) (sum-list y)))
  :how ((:induct (binary-append x y)) (:use sum-list-is-integer ((x y))) (:expand (append x y) (sum-list x))
        (:rewrite sum-list-of-cons)))

(defthm sum-list-of-rev
  (equal (sum-list (rev x)) (sum-list x))
  :how ((:induct (rev x)) (:expand (rev x) (sum-list x) (sum-list nil)) (:rewrite sum-list-of-append sum-list-of-cons)))

; An item in each place.

(defun map-cons (a x) (if (consp x) (cons (cons a (car x)) (map-cons a (cdr x))) nil))

(defthm len-of-map-cons
  (equal (len (map-cons a x)) (len x))
  :how ((:induct (len x)) (:expand (map-cons a x) (len x)) (:rewrite len-of-cons)))

(defthm map-cons-of-append
  (equal (map-cons a (append x y)) (append (map-cons a x) (map-cons a y)))
  :how ((:induct (binary-append x y))
        (:expand (append x y) (map-cons a x) (map-cons a (cons (car x) (append (cdr x) y))))
        (:rewrite append-of-cons append-of-nil)))
