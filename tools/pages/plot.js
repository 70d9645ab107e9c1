"use strict";
// How a trend is painted: bands, the line and dots, each as one outline for all points in sight. (dygraphs' own plotters fill a rectangle
// for each pair of points, and begin an outline for each dot.)

const DOT_EVERY = 4; // pixels: kept points that are nearer together on the average have no dots, which would make a thick line

// Calls `each` with the stretches of points without a gap, and with the time, in pixels, up to which a stair goes on behind a stretch.
function stretches(points, each) {
  let begin = 0;
  for (let place = 0; place <= points.length; place += 1) {
    if (place < points.length && !Number.isNaN(points[place].yval)) continue;
    if (place > begin) each(points.slice(begin, place), (points[place] || points[place - 1]).canvasx);
    begin = place + 1;
  }
}

// An edge of a stretch: from its first point to its last one as [x, y] pairs, with the corners of a stair.
function edge(points, y, end, step) {
  const found = [];
  points.forEach((point, place) => {
    if (step && place) found.push([point.canvasx, y(points[place - 1])]);
    found.push([point.canvasx, y(point)]);
  });
  if (step) found.push([end, y(points[points.length - 1])]);
  return found;
}

function follow(context, places) {
  for (const [x, y] of places) context.lineTo(x, y);
}

// What fills a series from its lowest to its highest values.
function bandPlotter(alpha) {
  return ({points, drawingContext: context, plotArea: area, color, dygraph}) => {
    const step = dygraph.getOption("stepPlot"), height = share => area.h * share + area.y;
    context.save();
    context.globalAlpha = alpha;
    context.fillStyle = color;
    context.beginPath();
    stretches(points, (stretch, end) => {
      const upper = edge(stretch, point => height(point.y_top), end, step), lower = edge(stretch, point => height(point.y_bottom), end, step);
      context.moveTo(...upper[0]);
      follow(context, upper.concat(lower.reverse()));
      context.closePath();
    });
    context.fill();
    context.restore();
  };
}

function paintLine({points, drawingContext: context, color, strokeWidth, dygraph}) {
  const step = dygraph.getOption("stepPlot");
  context.strokeStyle = color;
  context.lineWidth = strokeWidth;
  context.lineJoin = "bevel";
  context.beginPath();
  stretches(points, (stretch, end) => {
    const line = edge(stretch, point => point.canvasy, end, step);
    context.moveTo(...line[0]);
    follow(context, line);
  });
  context.stroke();
}

const SHAPES = {
  kept: (context, x, y) => { context.moveTo(x + 3, y); context.arc(x, y, 3, 0, 2 * Math.PI); },
  late: (context, x, y) => { context.moveTo(x + 4, y); context.arc(x, y, 4, 0, 2 * Math.PI); },
  held: (context, x, y) => context.rect(x - 3.5, y - 3.5, 7, 7),
};

// The dots of all points of a kind, as pairs of pixels.
function paintDots(context, kind, places, colour) {
  context.beginPath();
  for (const [x, y] of places) SHAPES[kind](context, x, y);
  context.lineWidth = 1.5;
  context.strokeStyle = colour;
  context.fillStyle = kind === "late" ? "#fff" : colour;
  context.fill();
  if (kind === "late") context.stroke();
}
