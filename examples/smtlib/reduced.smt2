(declare-datatypes ((Room 0) (Teacher 0))
  (( hall classroom )
   ( adams )))

(declare-sort Lesson )
(declare-const music Lesson)
(declare-const theatre Lesson)
(declare-const exam Lesson)
(declare-fun hour (Lesson) Int)
(declare-fun room (Lesson) Room)
(declare-fun pupils (Lesson) Int)
(declare-const break-after Int)
(define-fun slot ((l Lesson)) Int (hour l) )
(define-fun before ((a Lesson) (b Lesson)) Bool (< (slot a) (slot b)))
(define-fun size ((r Room)) Int
  (match r
    ((hall 200)
     (gym 60) )))
(assert (= break-after 3))

(define-fun fits ((l Lesson)) Bool
(<= (pupils l) (size (room l))) )
(assert (fits exam))
(assert (forall ((l Lesson)) ((_ is classroom) (room l)) ))
(assert (before music theatre))
(assert (before theatre exam))
(assert (> (hour music) break-after))
(assert (or (= (hour exam) 2) (= (hour exam) break-after )))
(check-sat)
