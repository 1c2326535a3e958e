(in-package "ACL2")

; Isomorphisms. Each has two predicates and two functions: the first function takes what the first predicate is true
; of to what the second one is true of, the second function takes it back, and each undoes the other.

; Negation takes integers to integers, and undoes itself. Its conditions need no hints.
(defiso neg integerp integerp unary-- unary--)

; A box is a list of one item, and there is one for each value. With the definitions opened, what each condition
; says is an axiom on pairs.
(defun anyp (x) t)
(defun box (x) (list x))
(defun boxp (x) (equal (list (car x)) x))
(defiso boxed anyp boxp box car :how ((:all (:unfold anyp box boxp))))

; A pair with its parts exchanged. That both functions give pairs is proved by hints. That they undo each other is
; proved by a text, which cites a theorem; its hypothesis is the condition's.
(defun swap (x) (cons (cdr x) (car x)))
(defthm swap-of-swap
  (implies (consp x) (equal (swap (swap x)) x))
  :how ((:unfold swap)))
(defiso swapped consp consp swap swap
  :how ((:all (:unfold swap)))
  :proof ((:back-of-forth (:implies-out (:theorem swap-of-swap) (:hyp (consp x))))
          (:forth-of-back (:implies-out (:theorem swap-of-swap) (:hyp (consp x))))))

; The items of a list, each in a box. Each condition is proved by an induction of its own.
(defun wrap (x) (if (consp x) (cons (box (car x)) (wrap (cdr x))) nil))
(defun unwrap (x) (if (consp x) (cons (car (car x)) (unwrap (cdr x))) nil))
(defun wrappedp (x)
  (if (consp x)
      (if (boxp (car x)) (wrappedp (cdr x)) nil)
    (equal x nil)))

(defthm true-listp-of-cons
  (equal (true-listp (cons a x)) (true-listp x))
  :how ((:expand (true-listp (cons a x)))))
(defthm wrappedp-of-cons
  (equal (wrappedp (cons a x)) (if (boxp a) (wrappedp x) nil))
  :how ((:expand (wrappedp (cons a x)))))
(defthm wrap-of-cons
  (equal (wrap (cons a x)) (cons (box a) (wrap x)))
  :how ((:expand (wrap (cons a x)))))
(defthm unwrap-of-cons
  (equal (unwrap (cons a x)) (cons (car a) (unwrap x)))
  :how ((:expand (unwrap (cons a x)))))

(defiso wrapped true-listp wrappedp wrap unwrap
  :how ((:forth-image (:induct (wrap x)) (:expand (wrap x) (true-listp x) (wrappedp nil)) (:unfold box boxp)
                      (:rewrite wrappedp-of-cons))
        (:back-image (:induct (unwrap x)) (:expand (unwrap x) (wrappedp x)) (:rewrite true-listp-of-cons))
        (:back-of-forth (:induct (wrap x)) (:expand (wrap x) (true-listp x) (unwrap nil)) (:unfold box)
                        (:rewrite unwrap-of-cons))
        (:forth-of-back (:induct (unwrap x)) (:expand (unwrap x) (wrappedp x) (wrap nil)) (:unfold box boxp)
                        (:rewrite wrap-of-cons))))

; Later proofs cite the conditions by their numbers, from 1 to 4. The third says that the second function undoes the
; first.
(defthm neg-of-neg
  (implies (integerp x) (equal (- (- x)) x))
  :proof (:implies-in (integerp x) (:iso neg 3)))

; The same for another term.
(defthm unwrap-of-wrap-of-cdr
  (implies (true-listp (cdr y)) (equal (unwrap (wrap (cdr y))) (cdr y)))
  :proof (:implies-in (true-listp (cdr y)) (:subst (:iso wrapped 3) ((x (cdr y))))))

; The hypothesis of a condition is proved here: ANYP is true of everything, by its definition.
(defthm car-of-box
  (equal (car (box x)) x)
  :proof (:cut (:replace (:replace (:unfold (anyp x)) (:refl (anyp x)) (1))
                         (:axiom 1 ())
                         ())
               (:iso boxed 3)))

(value-triple (wrap '(1 a (2 . b))))
(value-triple (unwrap (wrap '(1 a (2 . b)))))
