-- For checks/pages, by pandoc: tables get columns that fit what is in them, and links are their text.

local WIDTH = 70 -- what pandoc takes for a whole line
local GAP = 3 -- between two columns

-- The width that a column needs for its longest cell, and for its longest word.
local function needed(rows, column)
  local cell, word = 1, 1
  for _, row in ipairs(rows) do
    local text = pandoc.utils.stringify(row[column])
    cell = math.max(cell, utf8.len(text))
    for each in text:gmatch("%S+") do
      word = math.max(word, utf8.len(each))
    end
  end
  return { cell = cell, word = word }
end

-- A column gets what it needs for its cells if that is at most its share of what is left, and what it needs for its words if that
-- is more. The others share the rest.
local function widths(needs)
  local found, left, open = {}, WIDTH - GAP * (#needs - 1), #needs
  local is_settled = false
  while not is_settled do
    is_settled = true
    for column, need in ipairs(needs) do
      local share = left / open
      local width = need.cell <= share and need.cell or need.word > share and need.word
      if width and not found[column] then
        found[column], left, open, is_settled = width, left - width, open - 1, false
      end
    end
  end
  for column in ipairs(needs) do
    found[column] = (found[column] or left / open) / WIDTH -- a share of the line
  end
  return found
end

function Table(element)
  local simple = pandoc.utils.to_simple_table(element)
  local rows = { simple.header, table.unpack(simple.rows) }
  local needs = {}
  for column = 1, #simple.aligns do
    needs[column] = needed(rows, column)
  end
  simple.widths = widths(needs)
  return pandoc.utils.from_simple_table(simple)
end

function Link(element)
  return element.content
end
