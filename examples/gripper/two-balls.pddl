; Two balls in the kitchen are wanted in the garden.
(define (problem two-balls)
  (:domain gripper)
  (:objects kitchen garden left right red blue)
  (:init
    (room kitchen) (room garden) (gripper left) (gripper right) (ball red) (ball blue)
    (at-robby kitchen) (free left) (free right) (at red kitchen) (at blue kitchen))
  (:goal (and (at red garden) (at blue garden))))
