-- For wrk: keys that are each asked for once. Its word is a number that no other run has.
local threads = 0
function setup(thread)
  thread:set("id", threads)
  threads = threads + 1
end

local before, count = "", 0
function init(words)
  before = words[1] .. "-" .. id .. "-"
end

function request()
  count = count + 1
  return wrk.format("GET", "/_groupcache/values/" .. before .. count)
end
