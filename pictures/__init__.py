"""Pictures of schedules: what the script `picture` at the repository's root is made of.

schedule.py reads the text of a schedule, and history.py keeps what is to be drawn of it. scenario.py reads as much of a
scenario as a picture shows. svg.py has colours, patterns and elements; drawing.py draws the SVG, and page.py writes the
HTML page around it.
"""
