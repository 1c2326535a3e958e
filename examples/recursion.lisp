(in-package "ACL2")

; Recursive functions: why their calls end, their values, and what evaluation proves.

; FACT calls itself, so a measure has to be a natural number and less at each call. None is given, and so it is
; (ACL2-COUNT N): N is the first formal that each call changes. The function has two conditions.
; :MEASURE-NATP is (NATP (ACL2-COUNT N)), axiom 33 for N.
; :MEASURE-DECREASES-1 is on the first call, which is reached where (NOT (ZP N)). Under this hypothesis its goal is
; (< (ACL2-COUNT (BINARY-+ '-1 N)) (ACL2-COUNT N)), and a theorem that each book begins with says so.
(defun fact (n)
  (declare (xargs :proof ((:measure-natp (:axiom 33 ((x n))))
                          (:measure-decreases-1
                            (:implies-out (:theorem acl2-count-minus-1)
                                          (:hyp (not (zp n))))))))
  (if (zp n)
      1
      (* n (fact (- n 1)))))

; Values are computed and printed. 33 is the largest number whose factorial fits 128 bits.
(value-triple (fact 5))
(value-triple (fact 33))

; Evaluation is a rule of proofs too: it concludes that a term without variables equals its value.
(defthm fact-of-5
  (equal (fact 5) 120)
  :proof (:eval (fact 5)))

; What has variables isn't evaluated, but a call can be replaced by its body. The test is false, so the else part is
; what remains of it.
(defthm fact-of-positive
  (implies (not (zp n)) (equal (fact n) (* n (fact (- n 1)))))
  :proof (:implies-in (not (zp n))
           (:replace (:if-false (:hyp (not (zp n))) 1 (* n (fact (- n 1))))
                     (:unfold (fact n))
                     (2))))

; What a measure owes can be cited like a theorem, by its number from 0 on.
(defthm fact-ends
  (implies (not (zp n)) (< (acl2-count (- n 1)) (acl2-count n)))
  :proof (:implies-in (not (zp n)) (:measure fact 1)))

; Functions may count upwards: then a measure is given. The next two lemmas are what its proof needs.

; A positive integer isn't ZP. Were it so, the body of ZP would say (NOT (< 0 N)).
(defthm positive-is-not-zp
  (implies (integerp n) (implies (< 0 n) (not (zp n))))
  :proof (:implies-in (integerp n)
           (:implies-in (< 0 n)
             (:cases (zp n)
                     (:contra (:hyp (< 0 n))
                              (:replace (:replace (:if-true (:hyp (integerp n)) (not (< 0 n)) t)
                                                  (:unfold (zp n))
                                                  (2))
                                        (:hyp (zp n))
                                        ())
                              (not (zp n)))
                     (:hyp (not (zp n)))))))

; Below N there is a distance to N. By axiom 27 (< (+ I (- I)) (+ N (- I))) equals (< I N), and as a polynomial
; (+ I (- I)) is 0. The outer step turns that equation round and goes from (< I N) to the goal.
(defthm distance-is-positive
  (implies (< i n) (< 0 (- n i)))
  :proof (:implies-in (< i n)
           (:replace (:ring (+ i (- i)) 0)
                     (:replace (:replace (:axiom 27 ((x i) (y n) (z (- i))))
                                         (:refl (< (+ i (- i)) (+ n (- i))))
                                         (1))
                               (:hyp (< i n))
                               ())
                     (1))))

; The measure is the distance from I to N, and 0 where there is none: NFIX gives a natural number for whatever it is
; given. At the call the distance is (- N (+ 1 I)), which as a polynomial is (+ -1 (- N I)), and NFIX-MINUS-1 says
; that one less is less for what isn't ZP.
(defun sum-from (i n)
  (declare (xargs :measure (nfix (- n i))
                  :proof ((:measure-natp
                            (:replace (:replace (:subst (:theorem natp-nfix) ((n (- n i))))
                                                (:refl (natp (nfix (- n i))))
                                                (1))
                                      (:axiom 1 ())
                                      ()))
                          (:measure-decreases-1
                            (:replace (:ring (+ -1 (- n i)) (- n (+ 1 i)))
                                      (:implies-out
                                        (:subst (:theorem nfix-minus-1) ((n (- n i))))
                                        (:implies-out
                                          (:implies-out
                                            (:subst (:theorem positive-is-not-zp) ((n (- n i))))
                                            (:replace (:replace (:axiom 17 ((x n) (y (- i))))
                                                                (:refl (integerp (- n i)))
                                                                (1))
                                                      (:axiom 1 ())
                                                      ()))
                                          (:implies-out (:theorem distance-is-positive) (:hyp (< i n)))))
                                      (1 1))))))
  (if (< i n)
      (+ i (sum-from (+ 1 i) n))
      0))

(value-triple (sum-from 1 101))
