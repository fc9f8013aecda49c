"""What commands of a book do. Each is imported while the program opens the book, and its words before."""
