-- What wrk asks for: each time a key that nobody has asked for.
local count, thread_number, threads = 0, 0, 0
function setup(thread)
    thread:set("thread_number", threads)
    threads = threads + 1
end
function init(words)
    seed = words[1] or "s"
end
function request()
    count = count + 1
    return wrk.format("GET", "/_groupcache/echo/" .. seed .. thread_number .. "x" .. count)
end
