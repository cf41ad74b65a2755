(define (domain d) ; none
 (:predicates (at ?a) (<= 1.5 -2)))
