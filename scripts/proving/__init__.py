"""What `./avrora` keeps of what it proved, and how it sees that nothing of it changed."""
