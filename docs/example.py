import vektrid

slide = vektrid.Region(left=-9000, top=2500, width=18001, height=12002)
field_width, field_height = 400, 300
shift = (0x9E3779B9, 0x3C6EF372)
pair = vektrid.Pair.standard()
pair.check(4)

print('visit     x      y')
for index, x, y in pair.walk(0, 16, shift):
    at = slide.position(x, y, field=(field_width, field_height))
    print(f'{index:5} {at.x:6} {at.y:6}')

m, a = 4, 2
click_x, click_y = -1234, 9876
span_x = slide.width - field_width + 1
span_y = slide.height - field_height + 1
column = (click_x - slide.left) * 2**a // span_x
row = (click_y - slide.top) * 2**(m - a) // span_y

index = pair.query(32, m, a, column, row, block=0, shift=shift)
point = pair.point(index, shift)
at = slide.position(point.x, point.y, field=(field_width, field_height))
print(f'the click {click_x}, {click_y} is in column {column}, row {row}')
print(f'visit {index} goes there: {at.x}, {at.y}')

assert (point.x >> 32 - a, point.y >> 32 - (m - a)) == (column, row)
edges_x = [slide.left + each * span_x / 2**a for each in (column, column + 1)]
edges_y = [slide.top + each * span_y / 2**(m - a) for each in (row, row + 1)]
print(f'the square: x from {edges_x[0]} to {edges_x[1]}, y from {edges_y[0]} to {edges_y[1]}')
assert edges_x[0] - 1 < at.x < edges_x[1] and edges_y[0] - 1 < at.y < edges_y[1]
assert slide.left <= at.x and at.x + field_width <= slide.left + slide.width
assert slide.top <= at.y and at.y + field_height <= slide.top + slide.height

places = range(64)
columns = [place % 8 for place in places]
rows = [place // 8 for place in places]
indexes = pair.overview(32, 6, 3, columns, rows, block=0, shift=shift)
quarters = [1 + index // 16 for index in indexes]
print('each square, by the quarter of the round that sees it')
for row in range(8):
    print(*quarters[8 * row:8 * row + 8])

for column, row in zip(columns, rows):
    if column % 2 == 0 and row % 2 == 0:
        corner = 8 * row + column
        assert sorted(quarters[corner + step] for step in (0, 1, 8, 9)) == [1, 2, 3, 4]
