(in-package "ACL2")

; Lemmas on pairs, integers and their order, none by induction. Each proof is written out, and later ones cite
; earlier ones: as they stand (:theorem), for other terms (:subst), and as equations to rewrite with (:replace).

; Pairs. Axiom 10 says that (CONSP (CONS X Y)) equals T. The inner step turns that equation round, and the outer
; one puts the term for T in axiom 1, which is T itself.
(defthm consp-of-cons
  (consp (cons a b))
  :proof (:replace (:replace (:axiom 10 ((x a) (y b)))
                             (:refl (consp (cons a b)))
                             (1))
                   (:axiom 1 ())
                   ()))

(defun swap (p) (cons (cdr p) (car p)))

; The body of SWAP is put in below CAR, and axiom 8 takes the first part of the new pair.
(defthm car-of-swap
  (equal (car (swap p)) (cdr p))
  :proof (:replace (:axiom 8 ((x (cdr p)) (y (car p))))
                   (:replace (:unfold (swap p)) (:refl (car (swap p))) (2 1))
                   (2)))

(defthm cdr-of-swap
  (equal (cdr (swap p)) (car p))
  :proof (:replace (:axiom 9 ((x (cdr p)) (y (car p))))
                   (:replace (:unfold (swap p)) (:refl (cdr (swap p))) (2 1))
                   (2)))

; The first lemma for the body of SWAP, with (SWAP P) put back for the body.
(defthm consp-of-swap
  (consp (swap p))
  :proof (:replace (:replace (:unfold (swap p)) (:refl (swap p)) (1))
                   (:subst (:theorem consp-of-cons) ((a (cdr p)) (b (car p))))
                   (1)))

; The outer SWAP becomes its body, the lemmas above rewrite both parts, and axiom 11 puts the pair together again.
(defthm swap-of-swap
  (implies (consp p) (equal (swap (swap p)) p))
  :proof (:implies-in (consp p)
           (:replace (:implies-out (:axiom 11 ((x p))) (:hyp (consp p)))
                     (:replace (:theorem car-of-swap)
                               (:replace (:theorem cdr-of-swap)
                                         (:unfold (swap (swap p)))
                                         (2 1))
                               (2 2))
                     (2))))

; The hypothesis is proved once the pair is known.
(defthm swap-of-swap-of-cons
  (equal (swap (swap (cons a b))) (cons a b))
  :proof (:implies-out (:subst (:theorem swap-of-swap) ((p (cons a b))))
                       (:theorem consp-of-cons)))

; Lists of two items, and their sums.
(defun second-of (x) (car (cdr x)))

(defthm second-of-list
  (equal (second-of (list a b)) b)
  :proof (:replace (:axiom 8 ((x b) (y nil)))
                   (:replace (:axiom 9 ((x a) (y (list b))))
                             (:unfold (second-of (list a b)))
                             (2 1))
                   (2)))

(defun sum-of-two (x) (+ (car x) (second-of x)))

(defthm sum-of-list
  (equal (sum-of-two (list a b)) (+ a b))
  :proof (:replace (:theorem second-of-list)
                   (:replace (:axiom 8 ((x a) (y (list b))))
                             (:unfold (sum-of-two (list a b)))
                             (2 1))
                   (2 2)))

; The sum of one list is A + B, which is B + A as a polynomial, and that is the sum of the other list.
(defthm sum-of-list-either-way
  (equal (sum-of-two (list a b)) (sum-of-two (list b a)))
  :proof (:replace (:replace (:subst (:theorem sum-of-list) ((a b) (b a)))
                             (:refl (sum-of-two (list b a)))
                             (1))
                   (:replace (:ring (+ a b) (+ b a)) (:theorem sum-of-list) (2))
                   (2)))

; Integers. As polynomials both sides are X, but what is no integer counts as 0, so X itself needs axiom 23.
(defthm minus-of-plus
  (implies (integerp x) (equal (- (+ x y) y) x))
  :proof (:implies-in (integerp x)
           (:replace (:implies-out (:axiom 23 ()) (:hyp (integerp x)))
                     (:ring (- (+ x y) y) (+ 0 x))
                     (2))))

; Order. Were Y less than X as well, X would be less than itself.
(defthm less-one-way
  (implies (< x y) (not (< y x)))
  :proof (:implies-in (< x y)
           (:cases (< y x)
                   (:contra (:implies-out (:implies-out (:axiom 25 ((z x))) (:hyp (< x y)))
                                          (:hyp (< y x)))
                            (:axiom 24 ())
                            (not (< y x)))
                   (:hyp (not (< y x))))))

(defun smaller (x y) (if (< x y) x y))

(defthm smaller-is-first
  (implies (< x y) (equal (smaller x y) x))
  :proof (:implies-in (< x y)
           (:replace (:if-true (:hyp (< x y)) x y)
                     (:unfold (smaller x y))
                     (2))))

; Two variables change places, all at once.
(defthm smaller-is-second
  (implies (< y x) (equal (smaller x y) y))
  :proof (:implies-in (< y x)
           (:replace (:if-false (:implies-out (:subst (:theorem less-one-way) ((x y) (y x)))
                                              (:hyp (< y x)))
                                x y)
                     (:unfold (smaller x y))
                     (2))))
