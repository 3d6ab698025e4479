// This model is a three-phase inverter in six-step mode. Its load is a star of three branches, each with a resistor and
// an inductor.
// Units: the model uses ms, V, A, Ohm and mH.
// Look at the three currents i, and at the three discrete variables leg, each of which is 1 or 0 for the two positions
// of a switch.
// Plot: tools/qss-plot examples/sixstep.mo --names i,leg
model sixstep "six-step inverter"
  parameter Real V = 300 "V", R = 5 "Ohm", L = 20 "mH", step = 3.333251953125 "ms";
  Real i[3](each unit = "A");
  discrete Real leg[3], clock(start = step);
initial algorithm
  leg[1] := 1;
  leg[3] := 1;
equation
  der(i[1]) = (V*(2*leg[1] - leg[2] - leg[3])/3 - R*i[1])/L;
  der(i[2]) = (V*(2*leg[2] - leg[3] - leg[1])/3 - R*i[2])/L;
  der(i[3]) = (V*(2*leg[3] - leg[1] - leg[2])/3 - R*i[3])/L;
algorithm
  when time >= clock then
    leg[1] := 1 - pre(leg[2]);
    leg[2] := 1 - pre(leg[3]);
    leg[3] := 1 - pre(leg[1]);
    clock := pre(clock) + step;
  end when;
  annotation(experiment(StopTime = 100, QSS_CoefBits = 24, QSS_TickBits = 12, QSS_LevelBits = 20, QSS_Quantum = 0.03125, QSS_TimeUnit = "ms"));
end sixstep;
