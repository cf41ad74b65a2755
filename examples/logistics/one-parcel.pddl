; A parcel goes from a shop in the north to a house in the south.
(define (problem one-parcel)
  (:domain logistics)
  (:objects parcel north south van cart jet field strip shop house)
  (:init
    (package parcel) (city north) (city south) (truck van) (truck cart) (aeroplane jet)
    (location field) (airport field) (in-city field north)
    (location strip) (airport strip) (in-city strip south)
    (location shop) (in-city shop north) (location house) (in-city house south)
    (at parcel shop) (at van field) (at cart strip) (at jet strip))
  (:goal (at parcel house)))
