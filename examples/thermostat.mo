model thermostat "a room that a heater keeps between 20 and 22 degrees"
  parameter Real outside = 8 "degrees";
  parameter Real loss = 0.0625 "part of the difference that is lost in a minute";
  parameter Real power = 1.5 "degrees a minute";
  Real room(start = 16);
  discrete Real heater(start = 1);
equation
  der(room) = power*heater - loss*(room - outside);
algorithm
  when room > 22 then
    heater := 0;
  elsewhen room < 20 then
    heater := 1;
  end when;
  annotation(experiment(StopTime = 60, QSS_CoefBits = 12, QSS_TickBits = 8, QSS_LevelBits = 6, QSS_Quantum = 0.125, QSS_TimeUnit = "min"));
end thermostat;
