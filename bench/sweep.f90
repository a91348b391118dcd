! The sequential sweep over a mesh as a Fortran programmer writes it: the measure for bench/run.py.
! It reads x.csv, e1.csv and e2.csv from the working folder, and takes points, edges and steps as its words.
program sweep
  use iso_fortran_env, only: int64
  implicit none
  integer :: points, edges, steps, k, i
  integer(int64) :: carried
  integer(int64), allocatable :: x(:), f(:)
  integer, allocatable :: e1(:), e2(:)
  character(len=32) :: word

  call get_command_argument(1, word)
  read (word, *) points
  call get_command_argument(2, word)
  read (word, *) edges
  call get_command_argument(3, word)
  read (word, *) steps
  allocate (x(points), f(points), e1(edges), e2(edges))
  call read_all('x.csv')
  open (10, file='e1.csv', status='old')
  read (10, *) e1
  close (10)
  open (10, file='e2.csv', status='old')
  read (10, *) e2
  close (10)
  f = 0
  do k = 1, steps
    do i = 1, edges
      carried = x(e2(i)) - x(e1(i))
      f(e1(i)) = f(e1(i)) + carried
      f(e2(i)) = f(e2(i)) - carried
    end do
    do i = 1, points
      x(i) = x(i) + f(i)
      f(i) = 0
    end do
  end do
  write (word, '(i0)') checked(x)
  write (*, '(a)') 'S = '//trim(word)

contains

  subroutine read_all(name)
    character(len=*), intent(in) :: name
    open (10, file=name, status='old')
    read (10, *) x
    close (10)
  end subroutine

  ! each point's value by its number, so that the sum tells whether points were mixed up
  function checked(values) result(total)
    integer(int64), intent(in) :: values(:)
    integer(int64) :: total
    integer :: at
    total = 0
    do at = 1, size(values)
      total = total + values(at)*at
    end do
  end function
end program
