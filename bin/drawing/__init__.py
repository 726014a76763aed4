"""What bin/draw is made of: plans and traces, bars and calls, rows, pictures, pages."""
