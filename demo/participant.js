// A participant at 127.0.0.1:9001, or at the port that is given, which prints each call and answers 200: node demo/participant.js [PORT].
const http = require("http");

http.createServer((request, response) => {
  let body = "";
  request.on("data", (part) => { body += part; });
  request.on("end", () => {
    console.log([request.method, request.url, request.headers["long-running-action"] || "", body].join(" ").trimEnd());
    // A length, since the coordinator takes no answer in chunks: Node sends chunks after a writeHead that sets none.
    response.writeHead(200, { "Content-Length": 0 });
    response.end();
  });
}).listen(Number(process.argv[2] || 9001), "127.0.0.1");
