; The tower of b on a on c is turned into c on b on a.
(define (problem swap)
  (:domain blocks)
  (:objects a b c)
  (:init (on-table c) (on a c) (on b a) (clear b) (hand-empty))
  (:goal (and (on c b) (on b a))))
