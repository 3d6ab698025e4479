// This model is a sigma-delta modulator of second order. Its input, the state input1, is a slow triangle.
// Units: time and variables have no units, and the modulator makes 64 steps in a unit of time.
// Look at bit, whose mean follows input1. The modulator compares x2 with 0 only once in each step. For this the clock
// sets ask to 1. One tick later the comparison determines bit, and ask becomes 0 again.
// Plot: tools/qss-plot examples/sigmadelta.mo --names input1,bit,x2 --to 2
model sigmadelta "second order sigma-delta"
  parameter Real T = 0.015625, big = 64;
  Real input1(start = 0), x1, x2;
  discrete Real bit(start = 1), ask, clock(start = T), rise(start = 0.125), turn(start = 4);
equation
  der(input1) = rise;
  der(x1) = (input1 - bit)/T/2;
  der(x2) = (x1 - bit)/T/2;
algorithm
  when time >= clock then
    clock := pre(clock) + T;
    ask := 1;
    bit := -1;
  end when;
  when x2 > big*(1 - ask) then
    bit := 1;
  end when;
  when ask > 0.5 then
    ask := 0;
  end when;
  when time >= turn then
    rise := -pre(rise);
    turn := pre(turn) + 8;
  end when;
  annotation(experiment(StopTime = 16, QSS_CoefBits = 16, QSS_TickBits = 12, QSS_LevelBits = 16, QSS_Quantum = 0.0078125, QSS_TimeUnit = "1"));
end sigmadelta;
