; Trucks drive within a city, aeroplanes fly between airports, and both carry packages.
(define (domain logistics)
  (:requirements :strips)
  (:predicates
    (package ?p) (truck ?t) (aeroplane ?a) (airport ?l) (location ?l)
    (in-city ?l ?c) (city ?c) (at ?x ?l) (in ?p ?v))
  (:action load-truck
    :parameters (?p ?t ?l)
    :precondition (and (package ?p) (truck ?t) (location ?l) (at ?t ?l) (at ?p ?l))
    :effect (and (in ?p ?t) (not (at ?p ?l))))
  (:action load-aeroplane
    :parameters (?p ?a ?l)
    :precondition (and (package ?p) (aeroplane ?a) (airport ?l) (at ?a ?l) (at ?p ?l))
    :effect (and (in ?p ?a) (not (at ?p ?l))))
  (:action unload-truck
    :parameters (?p ?t ?l)
    :precondition (and (package ?p) (truck ?t) (location ?l) (at ?t ?l) (in ?p ?t))
    :effect (and (at ?p ?l) (not (in ?p ?t))))
  (:action unload-aeroplane
    :parameters (?p ?a ?l)
    :precondition (and (package ?p) (aeroplane ?a) (airport ?l) (at ?a ?l) (in ?p ?a))
    :effect (and (at ?p ?l) (not (in ?p ?a))))
  (:action drive
    :parameters (?t ?from ?to ?c)
    :precondition (and (truck ?t) (location ?from) (location ?to) (city ?c)
      (at ?t ?from) (in-city ?from ?c) (in-city ?to ?c))
    :effect (and (at ?t ?to) (not (at ?t ?from))))
  (:action fly
    :parameters (?a ?from ?to)
    :precondition (and (aeroplane ?a) (airport ?from) (airport ?to) (at ?a ?from))
    :effect (and (at ?a ?to) (not (at ?a ?from)))))
