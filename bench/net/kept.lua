-- For wrk: 1,000 keys one after the other, again and again.
local count = 0
function request()
  count = (count + 1) % 1000
  return wrk.format("GET", "/_groupcache/values/kept-" .. count)
end
