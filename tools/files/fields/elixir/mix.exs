defmodule Seen.MixProject do
  defp package do
    [
      licenses: ["Apache 2.0"],
      links: %{}
    ]
  end
end
