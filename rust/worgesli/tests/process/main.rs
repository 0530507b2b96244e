//! A fetch in a process of its own, which is killed at each step, or whose system calls fail one after the other; and the process that goes on.
mod child;
mod faults;
mod kill;
mod world;
