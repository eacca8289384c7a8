-- For wrk: keys by Zipf's law, by inversion of its continuous form. Its words are the exponent, how many keys there are, and the seed.
local threads = 0
function setup(thread)
  thread:set("id", threads)
  threads = threads + 1
end

local exponent, keys
function init(words)
  exponent, keys = tonumber(words[1]), tonumber(words[2])
  math.randomseed(tonumber(words[3]) + id * 7919)
end

function request()
  local part, key = math.random()
  if exponent == 1 then
    key = math.exp(part * math.log(keys))
  else
    local left = 1 - exponent
    key = (part * ((keys + 1) ^ left - 1) + 1) ^ (1 / left)
  end
  return wrk.format("GET", string.format("/_groupcache/values/%d", math.min(math.floor(key), keys)))
end
