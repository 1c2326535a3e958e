(in-package "ACL2")

; Two theorems on lists by induction: NIL at the end of a list changes nothing, and APPEND is associative.

; First what APPEND does with a pair, with what is no pair, and with a new pair. Its body is
; (IF (CONSP X) (CONS (CAR X) (APPEND (CDR X) Y)) Y), and a test that is known leaves one of the two branches.
(defthm append-of-pair
  (implies (consp x) (equal (append x y) (cons (car x) (append (cdr x) y))))
  :proof (:implies-in (consp x)
           (:replace (:if-true (:hyp (consp x)) (cons (car x) (append (cdr x) y)) y)
                     (:unfold (append x y))
                     (2))))

(defthm append-of-atom
  (implies (not (consp x)) (equal (append x y) y))
  :proof (:implies-in (not (consp x))
           (:replace (:if-false (:hyp (not (consp x))) (cons (car x) (append (cdr x) y)) y)
                     (:unfold (append x y))
                     (2))))

; (CONS A X) is a pair by axiom 10, and its parts are A and X by axioms 8 and 9.
(defthm append-of-cons
  (equal (append (cons a x) y) (cons a (append x y)))
  :proof (:replace
           (:axiom 8 ((x a) (y x)))
           (:replace
             (:axiom 9 ((x a) (y x)))
             (:implies-out
               (:subst (:theorem append-of-pair) ((x (cons a x))))
               (:replace (:replace (:axiom 10 ((x a) (y x))) (:refl (consp (cons a x))) (1))
                         (:axiom 1 ())
                         ()))
             (2 2 1))
           (2 1)))

; Which lists have NIL at their end: of a pair the rest must be one, and what is no pair must be NIL.
(defthm true-listp-of-rest
  (implies (consp x) (equal (true-listp x) (true-listp (cdr x))))
  :proof (:implies-in (consp x)
           (:replace (:if-true (:hyp (consp x)) (true-listp (cdr x)) (equal x nil))
                     (:unfold (true-listp x))
                     (2))))

(defthm true-listp-of-atom
  (implies (not (consp x)) (equal (true-listp x) (equal x nil)))
  :proof (:implies-in (not (consp x))
           (:replace (:if-false (:hyp (not (consp x))) (true-listp (cdr x)) (equal x nil))
                     (:unfold (true-listp x))
                     (2))))

; An induction has four parts.
; 1. A measure, (ACL2-COUNT X).
; 2. The proof that it is a natural number, without hypotheses: axiom 33.
; 3. The proof of the goal. It may suppose the goal for smaller values, under the test of a case.
; 4. The cases, of which there is one: where (CONSP X), X may become (CDR X). A proof says that the measure is less
;    then. So the third part may suppose (IMPLIES (CONSP X) goal), with (CDR X) for X in the goal.
(defthm append-of-nil
  (implies (true-listp x) (equal (append x nil) x))
  :proof (:induct (acl2-count x)
           (:axiom 33 ())
           (:implies-in (true-listp x)
             (:cases (consp x)
               ; A pair. (APPEND X NIL) is (CONS (CAR X) (APPEND (CDR X) NIL)). The rest of X is a true list, so what
               ; is supposed replaces (APPEND (CDR X) NIL) by (CDR X), and axiom 11 puts X together again.
               (:replace
                 (:implies-out (:axiom 11 ()) (:hyp (consp x)))
                 (:replace
                   (:implies-out
                     (:implies-out
                       (:hyp (implies (consp x)
                                      (implies (true-listp (cdr x)) (equal (append (cdr x) nil) (cdr x)))))
                       (:hyp (consp x)))
                     (:replace (:implies-out (:theorem true-listp-of-rest) (:hyp (consp x)))
                               (:hyp (true-listp x))
                               ()))
                   (:implies-out (:subst (:theorem append-of-pair) ((y nil))) (:hyp (consp x)))
                   (2 2))
                 (2))
               ; No pair. (APPEND X NIL) is NIL, and so is X, since it is a true list. The equation (EQUAL X NIL) is
               ; turned round, and puts X in the place of NIL.
               (:replace
                 (:replace
                   (:replace (:implies-out (:theorem true-listp-of-atom) (:hyp (not (consp x))))
                             (:hyp (true-listp x))
                             ())
                   (:refl x)
                   (1))
                 (:implies-out (:subst (:theorem append-of-atom) ((y nil))) (:hyp (not (consp x))))
                 (2))))
           (((consp x)
             ((x (cdr x)))
             (:implies-out (:theorem acl2-count-cdr) (:hyp (consp x)))))))

; The same induction. Y and Z stay as they are.
(defthm append-is-associative
  (equal (append (append x y) z) (append x (append y z)))
  :proof (:induct (acl2-count x)
           (:axiom 33 ())
           (:cases (consp x)
             ; A pair. From the inside: (APPEND X Y) is a new pair, so APPEND of it and Z is one too, with the first
             ; part (CAR X). What is supposed turns its rest into (APPEND (CDR X) (APPEND Y Z)). The outermost step has
             ; APPEND-OF-PAIR turned round, and puts (APPEND X (APPEND Y Z)) in the place of that pair.
             (:replace
               (:replace (:implies-out (:subst (:theorem append-of-pair) ((y (append y z)))) (:hyp (consp x)))
                         (:refl (append x (append y z)))
                         (1))
               (:replace
                 (:implies-out
                   (:hyp (implies (consp x)
                                  (equal (append (append (cdr x) y) z) (append (cdr x) (append y z)))))
                   (:hyp (consp x)))
                 (:replace
                   (:subst (:theorem append-of-cons) ((a (car x)) (x (append (cdr x) y)) (y z)))
                   (:replace (:implies-out (:theorem append-of-pair) (:hyp (consp x)))
                             (:refl (append (append x y) z))
                             (2 1))
                   (2))
                 (2 2))
               (2))
             ; No pair. (APPEND X Y) is Y on the left, and (APPEND X (APPEND Y Z)) is (APPEND Y Z) on the right.
             (:replace
               (:replace (:implies-out (:subst (:theorem append-of-atom) ((y (append y z)))) (:hyp (not (consp x))))
                         (:refl (append x (append y z)))
                         (1))
               (:replace (:implies-out (:theorem append-of-atom) (:hyp (not (consp x))))
                         (:refl (append (append x y) z))
                         (2 1))
               (2)))
           (((consp x)
             ((x (cdr x)))
             (:implies-out (:theorem acl2-count-cdr) (:hyp (consp x)))))))

; Associativity, twice, for four lists.
(defthm append-of-four
  (equal (append (append (append a b) c) d) (append a (append b (append c d))))
  :proof (:replace (:subst (:theorem append-is-associative) ((x a) (y b) (z (append c d))))
                   (:subst (:theorem append-is-associative) ((x (append a b)) (y c) (z d)))
                   (2)))
